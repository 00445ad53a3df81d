int main(void) {
    int x;
    osout << x;
}
