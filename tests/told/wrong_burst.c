const int FEW = 4;
const int MANY = 8;
const unsigned ALL = 8u;
const int NONE = -4;

int main(void) {
    int a[8], b[FEW], c[osin_len], d[ALL], e[8], s[2] __attribute__((stream)), n = 4;
    #pragma omp task input(osin >> a[4]) output(osout << b[MANY], s[0] << e[MANY], s[1] << c[4])
    b[0] = a[0] + c[0] + e[0];
    #pragma omp task input(s[0] >> a[FEW], s[1] >> c[1]) output(osout << d[(+8)], osout << b[-4])
    d[0] = a[0] + c[0] + b[0];
    {
        int a[4];
        #pragma omp task output(osout << a[8], osout << b[n], osout << d[NONE], osout << c[MANY])
        a[0] = b[0] + c[0] + d[0];
    }
}
