int main(void) {
    int x;
    #pragma omp task inout(osin >> x)
        ;
}
