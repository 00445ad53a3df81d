int main(void) {
    int w[4], y;
    #pragma omp task input(osin >> w) output(osout << y)
        y = w[0];
}
