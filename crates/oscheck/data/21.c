int main(void) {
    int s __attribute__((stream)), x;
    #pragma omp task input(osin >> x) output(s << x)
    x = 1;
}
