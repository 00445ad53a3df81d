int f(int a[], int n) { return n; }
int main(void) { }
