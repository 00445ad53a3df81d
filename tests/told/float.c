int main(void) {
    float x;
}
