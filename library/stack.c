/* Measures how much stack the calls need: each runs in a thread on a stack that was filled with one byte, and what is no longer that byte was used. The
 * inputs are the largest: positions of one block with many groups, whose one solution lies as deep as there are groups, and boards of many densities, judged
 * without their mine total and with it.
 *
 *     cc -O2 -pthread -o target/library/stack library/stack.c crates/export/out/libexport.a && target/library/stack */
#define _GNU_SOURCE
#include "lihvompa.h"
#include <pthread.h>
#include <stdio.h>
#include <stdlib.h>
#include <string.h>

enum { STACK = 8 << 20, FILL = 0xA5, SIDE = 32, CELLS = SIDE * SIDE };

static uint8_t cells[CELLS], lent[CELLS];
static uint16_t safe[CELLS], mines[CELLS], opened_in[CELLS];
static uint64_t counts[4];
static size_t start;
static int call;
static uint8_t number;

static void *run(void *unused)
{
    memset(counts, 0, sizeof counts);
    memcpy(lent, cells, CELLS);
    switch (call) {
    case 0: number = lihvompa_frontier(SIDE, SIDE, cells, CELLS, counts, 4); break;
    case 1: number = lihvompa_direct(SIDE, SIDE, lent, CELLS, safe, CELLS, mines, CELLS, counts, 4); break;
    case 2: number = lihvompa_minus(SIDE, SIDE, lent, CELLS, safe, CELLS, mines, CELLS, counts, 4); break;
    case 3: number = lihvompa_enumerate(SIDE, SIDE, lent, CELLS, safe, CELLS, mines, CELLS, counts, 4); break;
    case 4: number = lihvompa_table(SIDE, SIDE, cells, CELLS, 0, lent, CELLS, counts, 4); break;
    case 5: number = lihvompa_pattern(SIDE, SIDE, cells, CELLS, counts, 4); break;
    case 6: number = lihvompa_verdict(SIDE, SIDE, start / SIDE, start % SIDE, cells, CELLS, lent, CELLS, opened_in, CELLS, counts, 4); break;
    case 7: number = lihvompa_verdict_total(SIDE, SIDE, start / SIDE, start % SIDE, cells, CELLS, lent, CELLS, opened_in, CELLS, counts, 4); break;
    case 8: number = lihvompa_bbbv(SIDE, SIDE, cells, CELLS, counts, 4); break;
    default: break;
    }
    return unused;
}

/* How many bytes of its stack a thread uses for a call; call -1 is none, so what a thread itself needs. */
static size_t used(int which)
{
    uint8_t *stack = aligned_alloc(4096, STACK);
    size_t untouched = 0;
    pthread_attr_t attributes;
    pthread_t thread;
    call = which;
    memset(stack, FILL, STACK);
    pthread_attr_init(&attributes);
    if (pthread_attr_setstack(&attributes, stack, STACK) || pthread_create(&thread, &attributes, run, NULL)) {
        fprintf(stderr, "no thread\n");
        exit(1);
    }
    pthread_join(thread, NULL);
    pthread_attr_destroy(&attributes);
    while (untouched < STACK && stack[untouched] == FILL)
        untouched++;
    free(stack);
    return STACK - untouched;
}

static void report(const char *input, const char *name, int which)
{
    size_t none = used(-1), bytes = used(which) - none;
    printf("%-24s %-10s number %d counts %llu %llu: %zu bytes\n", input, name, number, (unsigned long long)counts[0], (unsigned long long)counts[1], bytes);
}

/* A position of 0s and closed cells, closed where the test says: all closed cells are safe. */
static void position(int (*closed)(int, int))
{
    for (int r = 0; r < SIDE; r++)
        for (int c = 0; c < SIDE; c++)
            cells[r * SIDE + c] = closed(r, c) ? 10 : 0;
}

static int chequered(int r, int c) { return (r + c) % 2; }
static int two_of_three(int r, int c) { return (r + c) % 3 != 0; }
static int one_of_four(int r, int c) { return r % 2 == 0 && c % 2 == 0; }

static void positions(const char *input, int (*closed)(int, int))
{
    position(closed);
    report(input, "frontier", 0);
    report(input, "direct", 1);
    report(input, "minus", 2);
    report(input, "enumerate", 3);
    report(input, "table", 4);
}

/* The first 0 of the board in reading order, or its first safe cell where no cell is 0. */
static size_t first_start(void)
{
    const uint8_t *zero = memchr(cells, 0, CELLS);
    size_t c = 0;
    if (zero)
        return zero - cells;
    while (c + 1 < CELLS && cells[c] == LIHVOMPA_MINE)
        c++;
    return c;
}

/* A board with so many mines of a hundred, and its start: the first 0, else the first safe cell, so that the board is judged and not refused. */
static void board(unsigned percent, unsigned *seed)
{
    for (int i = 0; i < CELLS; i++) {
        *seed = *seed * 1103515245u + 12345u;
        cells[i] = (*seed >> 16) % 100 < percent ? 255 : 0;
    }
    for (int r = 0; r < SIDE; r++)
        for (int c = 0; c < SIDE; c++)
            if (cells[r * SIDE + c] != 255)
                for (int i = r - 1; i <= r + 1; i++)
                    for (int j = c - 1; j <= c + 1; j++)
                        if (i >= 0 && j >= 0 && i < SIDE && j < SIDE && cells[i * SIDE + j] == 255)
                            cells[r * SIDE + c]++;
    start = first_start();
}

/* Judges the board by a call, and prints it where more stack was used than for any before. */
static void verdict(unsigned percent, const char *name, int which, size_t *most)
{
    size_t none = used(-1), bytes = used(which) - none;
    if (number != LIHVOMPA_ACCEPTED) {
        fprintf(stderr, "a board of %u%% mines is refused with %d: that measures the tests alone\n", percent, number);
        exit(1);
    }
    if (bytes > *most) {
        *most = bytes;
        printf("board of %u%% mines, %s, number %d, opened %llu, grade %llu: %zu bytes\n", percent, name, number, (unsigned long long)counts[1],
               (unsigned long long)counts[2], bytes);
    }
}

int main(void)
{
    unsigned seed = 1;
    size_t most = 0, most_with_total = 0;
    positions("one of four closed", one_of_four);
    positions("one of two closed", chequered);
    positions("two of three closed", two_of_three);
    for (unsigned percent = 5; percent <= 22; percent++)
        for (int k = 0; k < 20; k++) {
            board(percent, &seed);
            verdict(percent, "verdict", 6, &most);
            verdict(percent, "verdict with the total", 7, &most_with_total);
        }
    report("board", "pattern", 5);
    report("board", "bbbv", 8);
    return 0;
}
