int f(int a) {
    int b;
    b = 3;
    f = a;
    return b;
}
int g(int a) {
    f = a;
    return 1;
}
int main(void) { }
