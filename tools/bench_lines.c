/* The lines of crates/bench_parts in a plain loop over rows of 65 words: each sum in 128 bits and tested against the bound, each division by a
   number that is known only when it runs, as a checker of lines has it. */
#include <stdint.h>
#include <stdio.h>
#include <stdlib.h>
#include <string.h>

enum { WIDTH = 65 };
static const int64_t BOUND = 4611686018427387903;

static int put(int64_t *cell, __int128 sum) {
    if (sum > BOUND || sum < -BOUND) return 0;
    *cell = (int64_t)sum;
    return 1;
}

static int comb(int64_t *row, const int64_t *a, int64_t m, const int64_t *b, int64_t n) {
    for (int i = 0; i < WIDTH; i++)
        if (!put(&row[i], (__int128)a[i] * m + (__int128)b[i] * n)) return 0;
    return 1;
}

static int cut(int64_t *row, const int64_t *a, int64_t by) {
    for (int i = 0; i < WIDTH - 1; i++) {
        if (a[i] % by != 0) return 0;
        row[i] = a[i] / by;
    }
    int64_t rest = a[WIDTH - 1] % by;
    row[WIDTH - 1] = a[WIDTH - 1] / by - (rest < 0);
    return 1;
}

static int check(int64_t *rows, uint32_t lines, int cuts, int64_t by) {
    memset(rows, 0, 2 * WIDTH * sizeof *rows);
    rows[0] = 1, rows[1] = -1, rows[WIDTH] = -1, rows[WIDTH + 1] = 1;
    for (uint32_t line = cuts ? 1 : 2; line + 1 < lines; line++) {
        int64_t *row = rows + (size_t)line * WIDTH, *before = row - WIDTH;
        if (cuts ? !cut(row, before, by) : !comb(row, before, by, rows + (line % 2) * WIDTH, by)) return 0;
    }
    int64_t *last = rows + (size_t)(lines - 1) * WIDTH;
    memset(last, 0, WIDTH * sizeof *last);
    last[WIDTH - 1] = -1;
    for (int i = 0; i < WIDTH - 1; i++)
        if (last[i] != 0) return 0;
    return last[WIDTH - 1] < 0;
}

int main(int argc, char **argv) {
    if (argc != 4) return 2;
    uint32_t lines = (uint32_t)strtoul(argv[2], 0, 10), times = (uint32_t)strtoul(argv[3], 0, 10), accepted = 0;
    volatile int64_t divisor = 1; /* else the compiler sees that it is 1, and divides nothing */
    int64_t by = divisor, *rows = malloc((size_t)lines * WIDTH * sizeof *rows);
    if (!rows) return 6;
    for (uint32_t i = 0; i < times; i++) accepted += (uint32_t)check(rows, lines, strcmp(argv[1], "cuts") == 0, by);
    printf("%u lines accepted %u times\n", lines, accepted);
    free(rows);
    return 0;
}
