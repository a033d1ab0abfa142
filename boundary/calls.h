/* Every function of leg_sheet.h behind one type, so that a test goes over all of them, and inputs for each. */
#ifndef CALLS_H
#define CALLS_H

#include "leg_sheet.h"

enum { LISTS = 5, NUMBERS = 4 };

/* A lent list: its items and how many there are. */
struct list {
    void *items;
    size_t length;
};

enum use { READ, CHANGED, WRITTEN };

/* A list that a function takes. One that is WRITTEN needs `fixed` items and `each` more for every one that the function counts. */
struct parameter {
    size_t size; /* of an item, in bytes */
    enum use use;
    size_t fixed, each;
    int is_bound; /* no length is passed in: there are `fixed` items */
};

struct call {
    const char *name;
    struct parameter lists[LISTS];
    size_t count; /* of its lists */
    uint64_t (*run)(const struct list *lists, const size_t *numbers);
};

/* A function and its arguments: the lists that it reads or changes, and the numbers. */
struct question {
    const struct call *call;
    struct list given[LISTS];
    size_t numbers[NUMBERS];
};

extern const struct call CALLS[];
extern const size_t CALLS_COUNT;

/* Inputs for every function: small ones, and those at the limits. */
extern const struct question *questions(size_t *count);

#endif
