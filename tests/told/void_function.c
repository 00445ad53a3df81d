void f(int a) { }
int main(void) { }
