int main(void) {
    int x, y;
    #pragma omp task input(x >> y)
        ;
}
