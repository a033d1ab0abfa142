// Times the three calls on stores of several lengths: full, with eight drafts of one length, and nearly empty, with one short draft. A time is the least of many.
#include <stdio.h>
#include <string.h>
#include <time.h>

#include "leg_sheet.h"

static const size_t lengths[] = {1000, 10000, 100000, LEG_STORE};

static uint8_t store[LEG_STORE], tree[LEG_TREE], out[LEG_TREE];
static size_t store_len, tree_len;

static double now(void) {
    struct timespec t;
    clock_gettime(CLOCK_MONOTONIC, &t);
    return t.tv_sec * 1e9 + t.tv_nsec;
}

// A Cell of this many bytes.
static void build(size_t length) {
    tree_len = length;
    tree[0] = 1;
    tree[1] = (uint8_t)((length - 3) / 256);
    tree[2] = (uint8_t)((length - 3) % 256);
    memset(tree + 3, 'x', length - 3);
}

static uint64_t save(int name) { return leg_save_draft(store, store_len, (uint8_t)name, tree, tree_len); }
static uint64_t forget(int name) { return leg_forget_draft(store, store_len, (uint8_t)name); }
static uint64_t copy(int name) { return leg_return_draft(store, store_len, (uint8_t)name, out, sizeof out); }

enum { SAVE, AGAIN, FORGET, RETURN, CALLS };

// Keeps the least time of a call; whether it was answered with this many bytes.
static int timed(double *best, uint64_t (*call)(int), int name, size_t count) {
    double begun = now();
    uint64_t word = call(name);
    double taken = now() - begun;
    if (taken < *best)
        *best = taken;
    return word == count;
}

// The name whose draft is first when this one's is last.
static int next(int name, int drafts) { return 'A' + (name - 'A' + 1) % drafts; }

// The least nanoseconds of each call, on the first draft: it is returned to, forgotten and saved, so that it is last; the next one is saved while it is there.
static int least(int drafts, double best[CALLS]) {
    int good = 1, name = 'A';
    for (int i = 0; i < CALLS; i++)
        best[i] = 1e18;
    memset(store, 0, store_len);
    for (int i = 0; i < drafts; i++)
        good &= save('A' + i) == 0;
    double start = now();
    for (int round = 0; round < 20 || now() - start < 2e8; round++) {
        good &= timed(&best[RETURN], copy, name, tree_len);
        good &= timed(&best[FORGET], forget, name, 0);
        good &= timed(&best[SAVE], save, name, 0);
        name = next(name, drafts);
        good &= timed(&best[AGAIN], save, name, 0);
        name = next(name, drafts);
    }
    return good;
}

static int row(int drafts, size_t length) {
    double best[CALLS];
    build(length);
    if (!least(drafts, best)) {
        printf("%zu bytes: not answered as they should be\n", store_len);
        return 1;
    }
    printf("%8zu %7d %8zu", store_len, drafts, length);
    for (int i = 0; i < CALLS; i++)
        printf(" %10.0f", best[i]);
    for (int i = 0; i < CALLS; i++)
        printf(" %7.2f", best[i] / store_len);
    printf("\n");
    return 0;
}

int main(void) {
    printf("ns for a call on the first draft of a store: save, where it was forgotten; again, where it is there; forget; return. Then ns for a byte of the store.\n");
    printf("%8s %7s %8s", "store", "drafts", "bytes");
    printf(" %10s %10s %10s %10s", "save", "again", "forget", "return");
    printf(" %7s %7s %7s %7s\n", "save", "again", "forget", "return");
    int failed = 0;
    for (size_t i = 0; i < sizeof lengths / sizeof *lengths; i++) {
        store_len = lengths[i];
        failed |= row(8, store_len / 8 - 3);
        failed |= row(1, 20);
    }
    return failed;
}
