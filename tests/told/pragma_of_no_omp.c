int main(void) {
#pragma GCC ivdep
    ;
}
