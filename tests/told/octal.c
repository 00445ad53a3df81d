const int MASK = 017;
int main(void) {
    int a = 010, b = 0, c = 00, d = 10, e = 0x10, f = 07u;
    a = MASK + a + b + c + d + e + f + 037777777777;
}
