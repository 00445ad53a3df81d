int main(void) {
    int *p;
}
