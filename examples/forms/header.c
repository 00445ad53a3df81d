// Each byte behind a header of 44 bytes, as WAV files have one, becomes 255 less it. The header is skipped.
const int HEADER = 44;
const int B = 64;
int main(void) {
    int i;
    if (osin_len < HEADER) return 0;
    #pragma omp tick(osin >> HEADER)
    for (i = HEADER; i < osin_len; i += B) {
        int n = osin_len - i < B ? osin_len - i : B;
        int a[n], b[n];
        #pragma omp task input(osin >> a[n]) output(osout << b[n])
        {
            int k;
            for (k = 0; k < n; k++) b[k] = 255 - a[k];
        }
    }
    return 0;
}
