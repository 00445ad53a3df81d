int f(int n) {
    int a[0];
    return 0;
}
int main(void) {
}
