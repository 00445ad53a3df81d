// A lossless wavelet transform of bytes: the 5/3 lifting steps of JPEG 2000, three levels in each block of 64.
//
// The control program, `main`, reads no byte itself. Each turn of its loop creates one activation of the task, which
// takes the next n bytes of the input, `osin`, as its window a, and writes the next n bytes of the output, `osout`,
// from its window b. The activations share nothing, so they run at the same time on as many workers as there are.
// unwavelet.c gives back the input byte for byte: each step adds to one byte what the others say, so it can be undone.

// A byte as a difference, from -128 to 127.
int wrap(int d) {
    return ((d + 128) & 255) - 128;
}

int main(void) {
    int i;
    for (i = 0; i < osin_len; i += 64) {
        int n = osin_len - i < 64 ? osin_len - i : 64;
        int a[n], b[n];
        #pragma omp task input(osin >> a[n]) output(osout << b[n])
        {
            int k, step, left, right;
            for (k = 0; k < n; k++) b[k] = a[k];
            for (step = 1; step < 8; step *= 2) {
                // The high part: what a byte differs by from the mean of its neighbours.
                for (k = step; k < n; k += 2 * step) {
                    left = b[k - step];
                    right = k + step < n ? b[k + step] : left;
                    b[k] = (b[k] - ((left + right) >> 1)) & 255;
                }
                // The low part: a byte with a quarter of its neighbours' differences, which keeps the mean.
                for (k = 0; k < n; k += 2 * step) {
                    right = k + step < n ? wrap(b[k + step]) : 0;
                    left = k > 0 ? wrap(b[k - step]) : right;
                    b[k] = (b[k] + ((left + right + 2) >> 2)) & 255;
                }
            }
        }
    }
    return 0;
}
