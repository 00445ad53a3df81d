int main(void) {
    int x, y, i, total = 0, count = 0, last = 0, next, mode = 1, state = 0, sum = 0, spare = 2;
    for (i = 0; i < osin_len; i++) {
        #pragma omp task input(osin >> x) output(osout << y)
        {
            int own = 0, k;
            total += x;
            count++;
            last = last + x;
            next = x;
            y = next;
            if (x > 4)
                mode = 2;
            else
                y = mode;
            for (k = 0; k < 3; ++k) {
                y = y + state;
                state = k;
                sum -= k;
            }
            while (x > 200 && spare < 9)
                spare = spare + 1;
            own = y;
        }
        #pragma omp task input(osin >> x) output(osout << y)
        for (sum = 0; sum < 2; sum++)
            y = y + total;
    }
}
