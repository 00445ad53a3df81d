int wrap(int d) {
    return ((d + 128) & 255) - 128;
}
int main(void) {
    int i;
    for (i = 0; i + 3 < osin_len; i += 4) {
        int a[4], b[4];
        #pragma omp task input(osin >> a[4]) output(osout << b[4])
        {
            int k, d;
            for (k = 0; k < 4; k += 2) {
                d = wrap(a[k + 1] - a[k]);
                b[k] = (a[k] + (d >> 1)) & 255;
                b[k + 1] = d & 255;
            }
        }
    }
    return 0;
}
