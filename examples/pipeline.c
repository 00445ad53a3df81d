int wrap(int d) {
    return ((d + 128) & 255) - 128;
}
int main(void) {
    int mid __attribute__((stream));
    int i;
    for (i = 0; i + 1 < osin_len; i += 2) {
        int a[2], m[2], q[2], o[2];
        #pragma omp task input(osin >> a[2]) output(mid << m[2])
        {
            int d = wrap(a[1] - a[0]);
            m[0] = (a[0] + (d >> 1)) & 255;
            m[1] = d;
        }
        #pragma omp task input(mid >> q[2]) output(osout << o[2])
        {
            o[0] = q[0];
            o[1] = (q[1] / 4) & 255;
        }
    }
    return 0;
}
