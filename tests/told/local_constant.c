int main(void) {
    const int n = 3;
}
