int main(void) {
}
int f(void) {
    return main();
}
