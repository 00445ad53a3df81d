int main(void) {
    int x;
    x = x(1);
}
