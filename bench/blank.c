// Times leg_blank beside leg_read_tree on the same tree: the flight of examples/flight.legs, a Row of as many Cells as there may be, and a Cell of as many bytes. The numbers
// passed in are none, which name every Cell; the last Cell's; and those of all Cells. A time is the least of many.
#include <stdio.h>
#include <string.h>
#include <time.h>

#include "leg_sheet.h"

static uint8_t tree[LEG_TREE], out[LEG_TREE];
static uint16_t cells[512];
static size_t tree_len, nodes, cells_len;

static double now(void) {
    struct timespec t;
    clock_gettime(CLOCK_MONOTONIC, &t);
    return t.tv_sec * 1e9 + t.tv_nsec;
}

// The nodes and the Cells' numbers of the tree that is there.
static void number(void) {
    nodes = cells_len = 0;
    for (size_t at = 0; at < tree_len; nodes++) {
        size_t length = tree[at + 1] * 256u + tree[at + 2];
        if (tree[at] == 1)
            cells[cells_len++] = (uint16_t)nodes;
        at += 3 + (tree[at] == 1 ? length : 0);
    }
}

// The tree of an example, behind settings of 31 bytes.
static int example(const char *path) {
    FILE *file = fopen(path, "rb");
    if (!file || fseek(file, 31, SEEK_SET) != 0)
        return 1;
    tree_len = fread(tree, 1, sizeof tree, file);
    fclose(file);
    return tree_len == 0;
}

static void element(size_t at, int tag, size_t length) {
    tree[at] = (uint8_t)tag;
    tree[at + 1] = (uint8_t)(length / 256);
    tree[at + 2] = (uint8_t)(length % 256);
}

// A Row of 511 Cells of 20 letters.
static void row(void) {
    tree_len = 3 + 511 * 23;
    element(0, 2, tree_len - 3);
    for (size_t at = 3; at < tree_len; at += 23) {
        element(at, 1, 20);
        memset(tree + at + 3, 'x', 20);
    }
}

// A Cell of 32,765 letters.
static void cell(void) {
    tree_len = LEG_TREE;
    element(0, 1, LEG_TREE - 3);
    memset(tree + 3, 'x', LEG_TREE - 3);
}

// The least nanoseconds of reading the tree, or with `list` of blanking; 0 where it is not answered so.
static double least(const uint16_t *list, size_t length) {
    double best = 1e18, start = now();
    for (int round = 0; round < 20 || now() - start < 2e8; round++) {
        double begun = now();
        uint64_t word = list ? leg_blank(tree, tree_len, list, length, out, sizeof out) : leg_read_tree(tree, tree_len);
        double taken = now() - begun;
        if (word != (list ? tree_len : nodes))
            return 0;
        if (taken < best)
            best = taken;
    }
    return best;
}

static int line(const char *name) {
    number();
    double read = least(NULL, 0), all = least(cells, 0), last = least(cells + cells_len - 1, 1), each = least(cells, cells_len);
    printf("%-16s %6zu %7zu %10.0f %10.0f %10.0f %10.0f %8.1f\n", name, nodes, tree_len, read, all, last, each, each / read);
    return read == 0 || all == 0 || last == 0 || each == 0;
}

int main(void) {
    printf("ns for a call: the tree read; blanked with no number, with the last Cell's, with those of all Cells. ratio: all divided by read.\n");
    printf("%-16s %6s %7s %10s %10s %10s %10s %8s\n", "tree", "nodes", "bytes", "read", "none", "last", "all", "ratio");
    if (example("examples/flight.legs"))
        return 1;
    int failed = line("the flight");
    row();
    failed |= line("a Row of Cells");
    cell();
    return failed | line("a long Cell");
}
