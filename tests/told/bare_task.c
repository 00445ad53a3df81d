int main(void) {
    int x;
    #pragma omp task
    x = x + 1;
}
