int main(void) {
    int x;
    #pragma omp task depend(in: x)
    {
    }
}
