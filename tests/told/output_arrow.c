int main(void) {
    int x;
    #pragma omp task output(osout >> x)
    {
    }
}
