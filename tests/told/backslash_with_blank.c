int main(void) {
    int x;
    #pragma omp task input(osin >> x) \ 
        output(osout << x)
    ;
}
