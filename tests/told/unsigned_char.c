int main(void) {
    unsigned char c;
}
