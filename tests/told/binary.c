int main(void) {
    int a = 0b1111;
}
