int main(void) {
    int x;
    assert(x > 0);
}
