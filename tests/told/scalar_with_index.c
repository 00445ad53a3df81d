int main(void) {
    int x;
    x[0] = 1;
}
