// The loop nest of `run`, as a C programmer writes it: two arrays of 1,024 numbers, a load of each, their sum modulo 2^32, a store.
#include <stdint.h>
#include <stdio.h>
#include <stdlib.h>

int main(int count, char **words) {
    if (count != 2) {
        fprintf(stderr, "plain: the number of rounds\n");
        return 1;
    }
    long rounds = atol(words[1]);
    static volatile int32_t a[1024], b[1024];
    for (int i = 0; i < 1024; i++) {
        a[i] = i;
        b[i] = 3 * i + 1;
    }
    for (long round = 0; round < rounds; round++)
        for (int i = 0; i < 1024; i++)
            a[i] = (int32_t)((uint32_t)a[i] + (uint32_t)b[i]);
    printf("%d\n", a[1023]);
    return 0;
}
