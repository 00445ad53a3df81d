int main(void) {
    #pragma omp task
    return 1;
}
