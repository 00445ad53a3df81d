int main(void) {
    int a, b;
    a = b = 1;
}
