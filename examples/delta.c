// A delta coder: each byte becomes its difference from the one before it, the first one stays.
//
// A window may be longer than its cursor moves: w covers n + 1 bytes of the input and moves by n, so the next window
// begins with this one's last byte. So no activation waits for another one. undelta.c gives back the input.

int main(void) {
    int i, first[1], same;
    if (osin_len == 0) return 0;
    // A burst of 0 looks at a byte and leaves it in the stream.
    #pragma omp task input(osin >> first[0]) output(osout << same)
    same = first[0];
    for (i = 1; i < osin_len; i += 64) {
        int n = osin_len - i < 64 ? osin_len - i : 64;
        int w[n + 1], b[n];
        #pragma omp task input(osin >> w[n]) output(osout << b[n])
        {
            int k;
            for (k = 0; k < n; k++) b[k] = (w[k + 1] - w[k]) & 255;
        }
    }
    return 0;
}
