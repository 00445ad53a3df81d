int f(int t) {
    if (t) {
        int t[4];
        return t[0] + t;
    }
    return t[1];
}
int main(void) { }
