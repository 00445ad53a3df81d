const int N = 2;

int input(int x) {
    return x;
}

int main(void) {
    int s __attribute__((stream)), t[N] __attribute__((stream)), u[2] __attribute__((stream)), only __attribute__((stream));
    int x, k = 1;
    #pragma omp tick(only >> 1)
    #pragma omp task input(osin >> x) output(s, t[k] << k)
    s = x;
    {
        int s = 1, t = 2, w[4];
        #pragma omp task input(u[k] >> w[input(s >> t)]) output(osout << x)
        {
            int u = w[s >> 1];
            x = u >> t;
        }
    }
}
