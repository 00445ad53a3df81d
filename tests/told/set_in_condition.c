int main(void) {
    int a = 0;
    if (a = 1)
        a = 2;
}
