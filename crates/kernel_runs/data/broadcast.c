int main(void) {
    int s[3] __attribute__((stream));
    int i, j;
    for (i = 0; i < osin_len; i++) {
        int x, p, q, r, y;
        #pragma omp task input(osin >> x) output(s[0] << p, s[1] << q, s[2] << r)
        { p = x; q = x >> 1; r = x >> 2; }
        for (j = 0; j < 3; j++) {
            #pragma omp task input(s[j] >> x) output(osout << y)
            y = x;
        }
    }
    return 0;
}
