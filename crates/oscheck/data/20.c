int main(void) {
    int x;
    #pragma omp task output(osin << x)
    x = 1;
}
