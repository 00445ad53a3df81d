int main(void) {
    int x = INT_MAX;
}
