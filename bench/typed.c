// Times leg_read_typed beside leg_read_tree on the tree that it writes: the flight of examples/flight.list, with its comments; a row of as many texts as there may be; a row in a row to
// the last level, texts in each; a text of as many letters as there may be, and of as many line feeds; a list of as many bytes as there may be, all but one line comments. A time is
// the least of many.
#include <stdio.h>
#include <string.h>
#include <time.h>

#include "leg_sheet.h"

static uint8_t text[LEG_TYPED], tree[LEG_TREE];
static size_t text_len, tree_len, nodes;

static double now(void) {
    struct timespec t;
    clock_gettime(CLOCK_MONOTONIC, &t);
    return t.tv_sec * 1e9 + t.tv_nsec;
}

static int example(const char *path) {
    FILE *file = fopen(path, "rb");
    if (!file)
        return 1;
    text_len = fread(text, 1, sizeof text, file);
    fclose(file);
    return text_len == 0;
}

// A line more: this many levels deep, this many times a word.
static void add(size_t level, const char *word, size_t times) {
    memset(text + text_len, ' ', 2 * level);
    text_len += 2 * level;
    for (size_t i = 0; i < times; i++) {
        memcpy(text + text_len, word, strlen(word));
        text_len += strlen(word);
    }
    text[text_len++] = '\n';
}

// A row of 511 texts of 20 letters.
static void row(void) {
    text_len = 0;
    add(0, "row", 1);
    for (int i = 0; i < 511; i++)
        add(1, "x", 20);
}

// Rows, each with 30 texts of 20 letters and the next row in it, down to level 15.
static void nested(void) {
    text_len = 0;
    for (size_t level = 0; level < 15; level++) {
        add(level, "row", 1);
        for (int i = 0; i < 30; i++)
            add(level + 1, "x", 20);
    }
}

static void cell(const char *letter) {
    text_len = 0;
    add(0, letter, LEG_TREE - 3);
}

// A text of one letter and comments of 80 bytes with their line feed.
static void comments(void) {
    text_len = 0;
    add(0, "x", 1);
    while (text_len + 80 <= LEG_TYPED)
        add(0, "#", 79);
}

// The least nanoseconds of reading the list, or the tree; 0 where it is not answered so.
static double least(int is_typed) {
    double best = 1e18, start = now();
    for (int round = 0; round < 20 || now() - start < 2e8; round++) {
        double begun = now();
        uint64_t word = is_typed ? leg_read_typed(text, text_len, tree, sizeof tree) : leg_read_tree(tree, tree_len);
        double taken = now() - begun;
        if (word != (is_typed ? tree_len : nodes))
            return 0;
        if (taken < best)
            best = taken;
    }
    return best;
}

static int line(const char *name) {
    tree_len = LEG_COUNT(leg_read_typed(text, text_len, tree, sizeof tree));
    nodes = LEG_COUNT(leg_read_tree(tree, tree_len));
    double typed = least(1), read = least(0);
    printf("%-24s %7zu %6zu %7zu %10.0f %8.2f %10.0f\n", name, text_len, nodes, tree_len, typed, typed / text_len, read);
    return nodes == 0 || typed == 0 || read == 0;
}

int main(void) {
    printf("ns for a call: the list read, and this for a byte; its tree read.\n");
    printf("%-24s %7s %6s %7s %10s %8s %10s\n", "list", "bytes", "nodes", "tree", "typed", "a byte", "tree read");
    if (example("examples/flight.list"))
        return 1;
    int failed = line("the flight");
    row();
    failed |= line("a row of texts");
    nested();
    failed |= line("nested rows");
    cell("x");
    failed |= line("a long text");
    cell("\\n");
    failed |= line("a text of line feeds");
    comments();
    return failed | line("comments");
}
