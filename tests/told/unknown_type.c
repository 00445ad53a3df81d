int main(void) {
    uint8_t x;
}
