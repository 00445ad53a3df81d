int main(void) {
    int x;
    #pragma omp task in(osin >> x)
    {
    }
}
