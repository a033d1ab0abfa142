// Times the leaves of many places of one sheet, by one call of leg_places and by a call of leg_place for each, alternately, in one run; a time is the least of many. The sheet is a
// Column of 7 Rows of Cells of a letter, of 8, 64 and 512 nodes. It answers 1 where one call for 256 places on 512 nodes misses the bar beside 256 calls.
#include <stdio.h>
#include <time.h>

#include "leg_sheet.h"

enum { ROWS = 7, NODES = 512, LINES = 2 * ROWS + 1 };

static const double BAR = 20;
static const size_t cells[] = {0, 8, 72};
static const size_t counts[] = {0, 1, 4, 16, 64, LEG_PLACES};

static const uint8_t settings[LEG_SETTINGS_BYTES] = "\x10\x00\x1C" "--||-|+++++++++" "\x01\x01\x00\x00" "    " "\x00\x00\x00\x02\x02";
static uint8_t tree[4 * NODES];
static size_t tree_len;
static size_t lines[LEG_PLACES], columns[LEG_PLACES];
static uint64_t places[LEG_PLACES], answers[LEG_PLACES], elements;
static uint16_t single[LEG_PLACES][LEG_PLACE];

static void front(uint8_t tag, size_t length) {
    tree[tree_len++] = tag;
    tree[tree_len++] = (uint8_t)(length / 256);
    tree[tree_len++] = (uint8_t)(length % 256);
}

// Rows of this many Cells, and places all over their sheet.
static void build(size_t row) {
    size_t wide = row == 0 ? 4 : 4 * row + 1;
    for (size_t at = 0; at < LEG_PLACES; at++) {
        lines[at] = 4 * at % LINES;
        columns[at] = 37 * at % wide;
        places[at] = LEG_AT(lines[at], columns[at]);
    }
    tree_len = 0;
    front(3, ROWS * (3 + 4 * row));
    for (size_t i = 0; i < ROWS; i++) {
        front(2, 4 * row);
        for (size_t j = 0; j < row; j++) {
            front(1, 1);
            tree[tree_len++] = 'x';
        }
    }
}

static double now(void) {
    struct timespec t;
    clock_gettime(CLOCK_MONOTONIC, &t);
    return t.tv_sec * 1e9 + t.tv_nsec;
}

static uint64_t together(size_t count) {
    return leg_places(settings, sizeof settings, tree, tree_len, places, count, answers, LEG_PLACES, &elements);
}

static uint64_t alone(size_t at) {
    return leg_place(settings, sizeof settings, tree, tree_len, lines[at], columns[at], single[at], LEG_PLACE);
}

// The least nanoseconds of one call for this many places, and of a call for each.
static void least(size_t count, double best[2]) {
    best[0] = best[1] = 1e18;
    double start = now();
    for (int round = 0; round < 20 || now() - start < 2e8; round++) {
        double begun = now();
        together(count);
        double between = now();
        for (size_t at = 0; at < count; at++)
            alone(at);
        double end = now();
        if (between - begun < best[0])
            best[0] = between - begun;
        if (end - between < best[1])
            best[1] = end - between;
    }
}

// Whether both ways agree on this many places of a sheet of this many nodes.
static int agree(size_t count, size_t nodes) {
    if (together(count) != count || elements != nodes)
        return 0;
    for (size_t at = 0; at < count; at++)
        if (alone(at) != LEG_PLACE || LEG_NODE(answers[at]) != single[at][0] || LEG_LINE(answers[at]) != single[at][1] || LEG_COLUMN(answers[at]) != single[at][2])
            return 0;
    return 1;
}

int main(void) {
    int missed = 0;
    printf("ns for all places. ratio: a call for each place divided by one call.\n");
    printf("%6s %7s %10s %11s %7s %4s\n", "nodes", "places", "one call", "call each", "ratio", "bar");
    for (size_t i = 0; i < sizeof cells / sizeof *cells; i++) {
        size_t nodes = 1 + ROWS + ROWS * cells[i];
        build(cells[i]);
        for (size_t j = 0; j < sizeof counts / sizeof *counts; j++) {
            double best[2];
            if (!agree(counts[j], nodes)) {
                printf("%zu nodes, %zu places: the two do not agree\n", nodes, counts[j]);
                return 1;
            }
            least(counts[j], best);
            double ratio = best[1] / best[0];
            printf("%6zu %7zu %10.0f", nodes, counts[j], best[0]);
            if (counts[j] > 0)
                printf(" %11.0f %7.2f", best[1], ratio);
            if (nodes == NODES && counts[j] == LEG_PLACES) {
                missed = ratio < BAR;
                printf(" %4.0f%s", BAR, missed ? " MISSED" : "");
            }
            printf("\n");
        }
    }
    return missed;
}
