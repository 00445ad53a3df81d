int main(void) {
    int i = 0;
    switch (i) {
        case 0: i = 1;
    }
}
