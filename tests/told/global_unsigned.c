unsigned count;
int main(void) {
}
