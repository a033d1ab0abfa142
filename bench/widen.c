// Times leg_widen beside leg_sizes on the same trees, alternately, in one run; a time is the least of many. Answers 1 where leg_widen takes over BAR times as long.
#include <stdio.h>
#include <time.h>

#include "leg_sheet.h"

enum { BYTES = 32768, NODES = 512, LONG = 32000, STAIRS = 240, STEPS = 99, BAR = 20 };

static const uint8_t settings[LEG_SETTINGS_BYTES] = "\x10\x00\x1C" "--||-|+++++++++" "\x01\x01\x00\x00" "    " "\x00\x00\x00\x01\x02";
static uint8_t tree[BYTES];
static size_t tree_len;
static uint16_t sizes[5 * NODES], nodes[NODES];
static uint32_t letters[NODES];

// Begins an element; answers where.
static size_t begin(uint8_t tag) {
    size_t start = tree_len;
    tree[start] = tag;
    tree_len += 3;
    return start;
}

static void end(size_t start) {
    size_t length = tree_len - start - 3;
    tree[start + 1] = (uint8_t)(length / 256);
    tree[start + 2] = (uint8_t)(length % 256);
}

static void cell(size_t length) {
    size_t start = begin(1);
    while (length-- > 0)
        tree[tree_len++] = 'x';
    end(start);
}

static void cells(size_t count, size_t length) {
    for (size_t i = 0; i < count; i++)
        cell(length);
}

// A Column of Cells of 0, 1, 2 .. letters.
static void stairs(size_t count) {
    size_t column = begin(3);
    for (size_t i = 0; i < count; i++)
        cell(i);
    end(column);
}

static void equal_row(void) { cells(NODES - 1, 50); }

static void one_long(void) {
    cell(LONG);
    cells(200, 0);
}

static void one_stairs(void) { stairs(STAIRS); }

// Stairs, and below them four Rows of such stairs and a Cell, each Row wider than the one above by as many letters as there are steps.
static void more_stairs(void) {
    stairs(STEPS);
    for (size_t i = 1; i <= 4; i++) {
        size_t row = begin(2);
        stairs(STEPS);
        cell(STEPS * i - 3);
        end(row);
    }
}

static const struct {
    const char *name;
    uint8_t tag;
    void (*children)(void);
} trees[] = {
    {"Row of equal Cells", 2, equal_row},
    {"Column of equal Cells", 3, equal_row},
    {"a long Cell, empty ones", 3, one_long},
    {"stairs", 3, one_stairs},
    {"stairs beside Cells", 3, more_stairs},
};

static double now(void) {
    struct timespec t;
    clock_gettime(CLOCK_MONOTONIC, &t);
    return t.tv_sec * 1e9 + t.tv_nsec;
}

static uint64_t measure(void) {
    return leg_sizes(settings, sizeof settings, tree, tree_len, sizes, 5 * NODES);
}

static uint64_t widen(void) {
    return leg_widen(settings, sizeof settings, tree, tree_len, nodes, NODES, letters, NODES);
}

// The least nanoseconds of both.
static void least(double best[2]) {
    best[0] = best[1] = 1e18;
    double start = now();
    for (int round = 0; round < 20 || now() - start < 2e8; round++) {
        double begun = now();
        measure();
        double between = now();
        widen();
        double ended = now();
        if (between - begun < best[0])
            best[0] = between - begun;
        if (ended - between < best[1])
            best[1] = ended - between;
    }
}

int main(void) {
    int missed = 0;
    printf("ns for the sizes of a tree, and for the letters that widen its sheet; the bar is %d times the sizes.\n", BAR);
    printf("%-24s %6s %6s %8s %10s %10s %6s\n", "tree", "nodes", "cells", "numbers", "sizes", "letters", "ratio");
    for (size_t i = 0; i < sizeof trees / sizeof *trees; i++) {
        tree_len = 0;
        size_t root = begin(trees[i].tag);
        trees[i].children();
        end(root);
        uint64_t sized = measure(), word = widen();
        size_t count = LEG_COUNT(word), numbers = 1;
        for (size_t k = 1; k < count; k++)
            numbers += letters[k] > letters[k - 1];
        if (LEG_NUMBER(sized) != 0 || LEG_NUMBER(word) != 0 || letters[0] != 1) {
            printf("%s: not answered as it should be\n", trees[i].name);
            return 1;
        }
        double best[2];
        least(best);
        double ratio = best[1] / best[0];
        printf("%-24s %6zu %6zu %8zu %10.0f %10.0f %6.1f\n", trees[i].name, LEG_COUNT(sized), count, numbers, best[0], best[1], ratio);
        missed |= ratio > BAR;
    }
    return missed;
}
