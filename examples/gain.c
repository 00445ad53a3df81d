// The first byte is a gain in eighths. Each other byte is multiplied by it, and cut off at 255.
int main(void) {
    int gain __attribute__((stream));
    int i, first, factor;
    if (osin_len == 0) return 0;
    #pragma omp task input(osin >> first) output(gain << factor)
    factor = first;
    for (i = 1; i < osin_len; i += 64) {
        int n = osin_len - i < 64 ? osin_len - i : 64;
        int a[n], b[n], g[1];
        #pragma omp task input(osin >> a[n], gain >> g[0]) output(osout << b[n])
        {
            int k, loud;
            for (k = 0; k < n; k++) {
                loud = a[k] * g[0] >> 3;
                b[k] = loud > 255 ? 255 : loud;
            }
        }
    }
    return 0;
}
