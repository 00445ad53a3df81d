// A filter bank of two bands with overlapping windows: the whole input by one step of the 5/3 wavelet, without blocks.
//
// Two kinds of activations are joined by two streams of the program's own. The first kind splits: it takes the pairs of
// a block and looks at the byte behind them. The second kind smooths the even bytes by the differences on both sides; its
// window of differences begins one before its block, so the stream `high` starts with one more element, a 0.
// For each block of up to 16 pairs the output has the low band and then the high band. unbank.c gives back the input.

// A byte as a difference, from -128 to 127.
int wrap(int d) {
    return ((d + 128) & 255) - 128;
}

int main(void) {
    int even __attribute__((stream)), high __attribute__((stream));
    int i, pairs = osin_len / 2, x, y;
    #pragma omp task output(high << y)
    y = 0;
    for (i = 0; i < pairs; i += 16) {
        int n = pairs - i < 16 ? pairs - i : 16;
        // The bytes of the block, and the next one if a pair follows.
        int m = i + n < pairs ? 2 * n + 1 : 2 * n;
        int w[m], e[n], d[n], around[n + 1], b[2 * n];
        #pragma omp task input(osin >> w[2 * n]) output(even << e[n], high << d[n])
        {
            int k, right;
            for (k = 0; k < n; k++) {
                right = 2 * k + 2 < m ? w[2 * k + 2] : w[2 * k];
                e[k] = w[2 * k];
                d[k] = wrap(w[2 * k + 1] - ((w[2 * k] + right) >> 1));
            }
        }
        #pragma omp task input(even >> e[n], high >> around[n]) output(osout << b[2 * n])
        {
            int k;
            for (k = 0; k < n; k++) {
                b[k] = (e[k] + ((around[k] + around[k + 1] + 2) >> 2)) & 255;
                b[n + k] = around[k + 1] & 255;
            }
        }
    }
    if (osin_len % 2 == 1) {
        #pragma omp task input(osin >> x) output(osout << y)
        y = x;
    }
    return 0;
}
