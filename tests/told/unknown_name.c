int main(void) {
    int x = 1;
    /* ä */ x = x * gain;
}
