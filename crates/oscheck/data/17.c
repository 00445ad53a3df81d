int main(void) {
    { int s __attribute__((stream)); }
}
