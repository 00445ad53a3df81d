const int N = 3;
int f(int n) {
    int a[N + 1];
    return 0;
}
int main(void) {
}
