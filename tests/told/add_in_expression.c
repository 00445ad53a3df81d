int main(void) {
    int a = 0, b;
    b = (a += 1);
}
