// The staged product of matrices in plain C: tiles of A and B are copied into buffers of their own, so is the tile of C, and that is
// copied back. Usage: product ROUNDS
#include <stdio.h>
#include <stdlib.h>
#include <string.h>

enum { SIZE = 100, TILE = 32 };

static int a[SIZE][SIZE], b[SIZE][SIZE], c[SIZE][SIZE];
static int fast_a[2][TILE][TILE], fast_b[2][TILE][TILE], fast_c[TILE][TILE];

static int place(int i) { return i < SIZE - TILE ? i : SIZE - TILE; }
static int least(int x, int y) { return x < y ? x : y; }

static void copy_in(int into[TILE][TILE], int from[SIZE][SIZE], int row, int column) {
    for (int r = 0; r < TILE; r++) memcpy(into[r], &from[row + r][column], sizeof into[r]);
}

static void tile(int it, int jt) {
    int ci = place(it), cj = place(jt);
    copy_in(fast_c, c, ci, cj);
    copy_in(fast_a[0], a, ci, 0);
    copy_in(fast_b[0], b, 0, cj);
    for (int kt = 0; kt < SIZE; kt += TILE) {
        int half = kt / TILE % 2, kk = place(kt);
        if (kt + TILE < SIZE) {
            copy_in(fast_a[1 - half], a, ci, place(kt + TILE));
            copy_in(fast_b[1 - half], b, place(kt + TILE), cj);
        }
        for (int i = it; i < least(it + TILE, SIZE); i++)
            for (int j = jt; j < least(jt + TILE, SIZE); j++)
                for (int k = kt; k < least(kt + TILE, SIZE); k++)
                    fast_c[i - ci][j - cj] += fast_a[half][i - ci][k - kk] * fast_b[half][k - kk][j - cj];
    }
    for (int r = 0; r < TILE; r++) memcpy(&c[ci + r][cj], fast_c[r], sizeof fast_c[r]);
}

int main(int count, char **words) {
    long rounds = count > 1 ? atol(words[1]) : 1;
    for (int i = 0; i < SIZE; i++)
        for (int j = 0; j < SIZE; j++) { a[i][j] = 1; b[i][j] = 2; }
    for (long round = 0; round < rounds; round++) {
        memset(c, 0, sizeof c);
        for (int it = 0; it < SIZE; it += TILE)
            for (int jt = 0; jt < SIZE; jt += TILE) tile(it, jt);
    }
    printf("%d\n", c[SIZE - 1][SIZE - 1]);
    return 0;
}
