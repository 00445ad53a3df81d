int main(void) {
    int x, y;
    #pragma omp task input(osin >> x,
                           osin >> y)
        y = x;
}
