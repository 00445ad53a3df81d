int f(int a) {
    return a;
}
int main(void) {
    int x;
    x = f;
}
