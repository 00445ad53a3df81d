// Blocks of sixteen bytes, four rows of four, in the order of their diagonals.
int place(int k) {
    if (k < 8) {
        if (k < 4) return k < 2 ? k < 1 ? 0 : 1 : k < 3 ? 4 : 8;
        return k < 6 ? k < 5 ? 5 : 2 : k < 7 ? 3 : 6;
    }
    if (k < 12) return k < 10 ? k < 9 ? 9 : 12 : k < 11 ? 13 : 10;
    return k < 14 ? k < 13 ? 7 : 11 : k < 15 ? 14 : 15;
}
int main(void) {
    int i;
    for (i = 0; i + 15 < osin_len; i += 16) {
        int a[16], b[16];
        #pragma omp task input(osin >> a[16]) output(osout << b[16])
        {
            int k;
            for (k = 0; k < 16; k++) b[k] = a[place(k)];
        }
    }
    return 0;
}
