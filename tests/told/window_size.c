const int NONE = 0;
const int MANY = 65536;
const unsigned LARGE = -1;
int main(void) {
    int a[0], b[65537], c[-1], d[NONE], e[LARGE], f[MANY], n, g[n], h[1], i[65536 + 1];
    #pragma omp task input(osin >> a[1], osin >> b[1], osin >> c[1], osin >> d[1])
    ;
    #pragma omp task input(osin >> e[1], osin >> f[1], osin >> g[1], osin >> h[1], osin >> i[1])
    ;
    n = 4;
}
int array(void) {
    int a[4];
    a[0] = 1;
    return a[0];
}
