int main(void) {
    int a, b, c, d, e, f, g, h, i, k;
    #pragma omp task output(osout << k)
    {
        #pragma omp task input(osin >> a, osin >> b, osin >> c, osin >> d, osin >> e, osin >> f, osin >> g, osin >> h, osin >> i)
        k = a + b + c + d + e + f + g + h + i;
    }
}
