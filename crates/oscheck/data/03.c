int main(void) {
    return 2147483648;
}
