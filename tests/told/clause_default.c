int main(void) {
    int x;
    #pragma omp task default(none)
    {
    }
}
