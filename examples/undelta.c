// The inverse of delta.c: a side stream, `last`, carries the last byte of each window to the next one.
//
// Here each activation waits for the one before it, since what it needs is no byte of the input but one of the output.

int main(void) {
    int last __attribute__((stream));
    int i, first, same, next;
    if (osin_len == 0) return 0;
    #pragma omp task input(osin >> first) output(osout << same, last << next)
    { same = first; next = first; }
    for (i = 1; i < osin_len; i += 64) {
        int n = osin_len - i < 64 ? osin_len - i : 64;
        int a[n], b[n], before;
        #pragma omp task input(osin >> a[n], last >> before) output(osout << b[n], last << next)
        {
            int k;
            next = before;
            for (k = 0; k < n; k++) {
                next = (next + a[k]) & 255;
                b[k] = next;
            }
        }
    }
    return 0;
}
