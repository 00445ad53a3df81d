int main(void) {
    int x, y;
    #pragma omp task input(osin >> x[4]) output(osout << y)
        y = x;
}
