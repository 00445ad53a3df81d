int main(void) {
    int x = NULL;
}
