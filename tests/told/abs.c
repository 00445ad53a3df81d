int main(void) {
    int x;
    x = abs(x);
}
