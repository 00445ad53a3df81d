int count;
int main(void) { }
