int main(void) {
    int x = true;
}
