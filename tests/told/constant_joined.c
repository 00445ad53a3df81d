const int N = 3;
int main(void) {
    #pragma omp task input(osin >> N)
        ;
}
