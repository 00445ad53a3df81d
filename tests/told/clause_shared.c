int main(void) {
    int x;
    #pragma omp task shared(x)
    {
    }
}
