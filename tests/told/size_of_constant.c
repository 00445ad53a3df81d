const int N = 0;
int f(int n) {
    int a[N];
    return 0;
}
int main(void) {
}
