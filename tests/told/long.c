int main(void) {
    long n = 1;
}
