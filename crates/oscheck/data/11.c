int f(void) {
    int a[2];
    a = 1;
    return 0;
}
int main(void) { }
