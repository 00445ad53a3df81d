int main(void) {
    int a = 3, b;
    b = --a;
}
