int main(void) {
    int w[4], y;
    #pragma omp task input(osin >> w[4]) output(osout << y)
        y = w;
}
