// Times leg_fold on lists of Cells that have this many lines of a letter each: with a budget for every height, and with none, alternately, in one run; a time is the least of many.
// The width is that of some Columns, so that some heights fit and others do not.
#include <stdio.h>
#include <time.h>

#include "leg_sheet.h"

enum { WIDTH = 40, LINES = 16 };

static const size_t counts[] = {20, LEG_CELLS};
static const size_t heights[] = {1, 4, LINES};

static const uint8_t settings[LEG_SETTINGS_BYTES] = "\x10\x00\x1C" "--||-|+++++++++" "\x01\x01\x00\x00" "    " "\x00\x00\x00\x01\x02";
static uint8_t tree[3 + LEG_CELLS * (3 + 2 * LINES)];
static size_t tree_len;
static uint16_t columns[LEG_CELLS];
static uint64_t found[LEG_FOUND];

static void front(uint8_t tag, size_t length) {
    tree[tree_len++] = tag;
    tree[tree_len++] = (uint8_t)(length / 256);
    tree[tree_len++] = (uint8_t)(length % 256);
}

static void build(size_t cells, size_t lines) {
    tree_len = 0;
    front(3, cells * (3 + 2 * lines - 1));
    for (size_t i = 0; i < cells; i++) {
        front(1, 2 * lines - 1);
        for (size_t j = 0; j < lines; j++) {
            if (j > 0)
                tree[tree_len++] = '\n';
            tree[tree_len++] = 'x';
        }
    }
}

static double now(void) {
    struct timespec t;
    clock_gettime(CLOCK_MONOTONIC, &t);
    return t.tv_sec * 1e9 + t.tv_nsec;
}

static uint64_t fold(size_t budget) {
    return leg_fold(settings, sizeof settings, tree, tree_len, WIDTH, budget, columns, LEG_CELLS, found);
}

// The least nanoseconds with a budget for every height, and with none.
static void least(double best[2]) {
    best[0] = best[1] = 1e18;
    double start = now();
    for (int round = 0; round < 20 || now() - start < 2e8; round++) {
        double begun = now();
        fold(SIZE_MAX);
        double between = now();
        fold(0);
        double end = now();
        if (between - begun < best[0])
            best[0] = between - begun;
        if (end - between < best[1])
            best[1] = end - between;
    }
}

int main(void) {
    printf("ns for a fold. a try: what each height more takes.\n");
    printf("%6s %6s %6s %8s %10s %10s %8s\n", "cells", "lines", "tries", "columns", "all tries", "no try", "a try");
    for (size_t i = 0; i < sizeof counts / sizeof *counts; i++) {
        for (size_t j = 0; j < sizeof heights / sizeof *heights; j++) {
            size_t cells = counts[i], lines = heights[j], tries = cells * lines + cells - 1 - lines;
            double best[2];
            build(cells, lines);
            uint64_t word = fold(SIZE_MAX);
            if (LEG_NUMBER(word) != 0 || found[1] != tries || found[2] != 0) {
                printf("%zu cells of %zu lines: not folded as they should be\n", cells, lines);
                return 1;
            }
            least(best);
            printf("%6zu %6zu %6zu %8zu %10.0f %10.0f %8.1f\n", cells, lines, tries, LEG_COUNT(word), best[0], best[1], (best[0] - best[1]) / tries);
        }
    }
    return 0;
}
