int main(void) {
    int x;
    #pragma omp task private(x)
    {
    }
}
