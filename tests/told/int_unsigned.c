int main(void) {
    int unsigned x;
}
