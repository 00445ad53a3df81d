int sign(int a) {
    if (a < 0)
        return -1;
    if (a > 0)
        return 1;
}
int both(int a) {
    if (a < 0)
        return -1;
    else {
        return 1;
    }
}
int counted(int a) {
    while (a > 0) {
        a--;
        return a;
    }
}
int found(int a) {
    for (;;) {
        if (a * a > 100)
            return a;
        a++;
    }
}
int left(int a) {
    while (1) {
        if (a > 100)
            break;
        a++;
    }
}
int searched(int a) {
    while (1u) {
        while (a > 0) {
            a--;
            break;
        }
        if (a == 0)
            return 1;
    }
}
int nothing(int a) {
    a = 0;
}
int main(void) {
    int x;
    x = sign(1) + both(1) + counted(1) + found(1) + left(1) + searched(1) + nothing(1);
    x = x + 1;
}
