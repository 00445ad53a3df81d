int main(void) {
    int x, y;
    #pragma omp task input(osin >> x)
        output(osout << y)
        y = x;
}
