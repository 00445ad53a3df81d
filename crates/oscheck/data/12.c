int f(int a) {
    int a;
    return a;
}
int main(void) { }
