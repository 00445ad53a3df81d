int main(void) {
    int t[70000] __attribute__((stream));
    int s[65536] __attribute__((stream)), u __attribute__((stream));
}
