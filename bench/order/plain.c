// The product of two matrices in tiles, with the copies that `product.image.mlir` makes, as a C programmer writes them: each tile of C is
// copied into a buffer and back, and the tiles of A and B into two buffers each, the next before the present one is used. So many rounds.
#include <stdint.h>
#include <stdio.h>
#include <stdlib.h>
#include <string.h>

enum { SIZE = 100, TILE = 32, LAST = SIZE - TILE };

static int32_t a[SIZE][SIZE], b[SIZE][SIZE], c[SIZE][SIZE];
static int32_t near_a[2][TILE][TILE], near_b[2][TILE][TILE], near_c[TILE][TILE];

static int place(int tile) { return tile < LAST ? tile : LAST; }

static void copy_in(int32_t near[TILE][TILE], int32_t far[SIZE][SIZE], int row, int column) {
    for (int i = 0; i < TILE; i++) memcpy(near[i], &far[row + i][column], TILE * sizeof(int32_t));
}

static void copy_out(int32_t near[TILE][TILE], int32_t far[SIZE][SIZE], int row, int column) {
    for (int i = 0; i < TILE; i++) memcpy(&far[row + i][column], near[i], TILE * sizeof(int32_t));
}

static int end_of(int tile) { return tile + TILE < SIZE ? tile + TILE : SIZE; }

static void multiply(int it, int jt, int kt, int half) {
    int pi = place(it), pj = place(jt), pk = place(kt);
    for (int i = it; i < end_of(it); i++)
        for (int j = jt; j < end_of(jt); j++)
            for (int k = kt; k < end_of(kt); k++)
                near_c[i - pi][j - pj] += near_a[half][i - pi][k - pk] * near_b[half][k - pk][j - pj];
}

static void tile_of_c(int it, int jt) {
    copy_in(near_c, c, place(it), place(jt));
    copy_in(near_a[0], a, place(it), 0);
    copy_in(near_b[0], b, 0, place(jt));
    for (int kt = 0; kt < SIZE; kt += TILE) {
        int half = kt / TILE % 2;
        if (kt + TILE < SIZE) {
            copy_in(near_a[1 - half], a, place(it), place(kt + TILE));
            copy_in(near_b[1 - half], b, place(kt + TILE), place(jt));
        }
        multiply(it, jt, kt, half);
    }
    copy_out(near_c, c, place(it), place(jt));
}

int main(int count, char **words) {
    if (count != 2) {
        fprintf(stderr, "plain: the number of rounds\n");
        return 1;
    }
    long rounds = atol(words[1]);
    for (long round = 0; round < rounds; round++) {
        for (int i = 0; i < SIZE; i++)
            for (int j = 0; j < SIZE; j++) {
                a[i][j] = 1;
                b[i][j] = 2;
                c[i][j] = 0;
            }
        for (int it = 0; it < SIZE; it += TILE)
            for (int jt = 0; jt < SIZE; jt += TILE) tile_of_c(it, jt);
        for (int i = 0; i < SIZE; i++)
            for (int j = 0; j < SIZE; j++)
                if (c[i][j] != 200) {
                    fprintf(stderr, "plain: %d at %d, %d\n", c[i][j], i, j);
                    return 1;
                }
    }
    printf("%d\n", c[SIZE - 1][SIZE - 1]);
    return 0;
}
