int main(void) {
    int w[3], y[1];
    #pragma omp task input(osin >> w[1]) output(osout << y[1])
    { y[0] = w[2]; }
    #pragma omp task input(osin >> w[1]) output(osout << y[1])
    { y[0] = w[2]; }
    #pragma omp task input(osin >> w[1]) output(osout << y[1])
    { y[0] = w[2]; }
}
