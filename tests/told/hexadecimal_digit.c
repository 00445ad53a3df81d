int main(void) {
    int a = 0x1G;
}
