int main(void) {
    int x;
    memcpy(x, x, 4);
}
