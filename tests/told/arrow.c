int main(void) {
    int a, b;
    a = a->b;
}
