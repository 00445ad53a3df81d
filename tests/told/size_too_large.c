int f(int n) {
    int a[100000];
    return 0;
}
int main(void) {
}
