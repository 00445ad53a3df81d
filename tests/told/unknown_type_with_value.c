int main(void) {
    bool done = 0;
}
