// Each byte x becomes x * x / 255, by a table that one task makes and all others read.
int main(void) {
    int curve __attribute__((stream));
    int i, t[256];
    #pragma omp task output(curve << t[256])
    {
        int k;
        for (k = 0; k < 256; k++) t[k] = k * k / 255;
    }
    for (i = 0; i < osin_len; i += 64) {
        int n = osin_len - i < 64 ? osin_len - i : 64;
        int a[n], b[n], u[256];
        #pragma omp task input(osin >> a[n], curve >> u[0]) output(osout << b[n])
        {
            int k;
            for (k = 0; k < n; k++) b[k] = u[a[k]];
        }
    }
    return 0;
}
