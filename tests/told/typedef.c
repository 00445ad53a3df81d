typedef int sample;
int main(void) { }
