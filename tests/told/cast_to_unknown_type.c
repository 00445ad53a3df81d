int main(void) {
    int a;
    a = (uint8_t)a;
}
