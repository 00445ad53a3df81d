// The inverse of wavelet.c: the same steps from the last to the first, each taken back.

// A byte as a difference, from -128 to 127.
int wrap(int d) {
    return ((d + 128) & 255) - 128;
}

int main(void) {
    int i;
    for (i = 0; i < osin_len; i += 64) {
        int n = osin_len - i < 64 ? osin_len - i : 64;
        int a[n], b[n];
        #pragma omp task input(osin >> a[n]) output(osout << b[n])
        {
            int k, step, left, right;
            for (k = 0; k < n; k++) b[k] = a[k];
            for (step = 4; step > 0; step /= 2) {
                for (k = 0; k < n; k += 2 * step) {
                    right = k + step < n ? wrap(b[k + step]) : 0;
                    left = k > 0 ? wrap(b[k - step]) : right;
                    b[k] = (b[k] - ((left + right + 2) >> 2)) & 255;
                }
                for (k = step; k < n; k += 2 * step) {
                    left = b[k - step];
                    right = k + step < n ? b[k + step] : left;
                    b[k] = (b[k] + ((left + right) >> 1)) & 255;
                }
            }
        }
    }
    return 0;
}
