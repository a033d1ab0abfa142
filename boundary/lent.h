/* The lists of a question, lent: made, passed in, and checked. */
#ifndef LENT_H
#define LENT_H

#include "calls.h"

/* Where this many bytes for the list of that index go. */
typedef void *(*placing)(size_t list, size_t bytes);

/* The lengths at which a question is accepted, and no list longer than needed; of one that is refused whatever is lent, lists that are long enough for any. */
uint64_t exact_lengths(const struct question *question, size_t *lengths);

/* Makes the lists of these lengths: those given, as far as they go, with 0 behind them; a pattern in those that are written. */
void lend(const struct question *question, const size_t *lengths, placing place, struct list *lists);

/* Anywhere, for as long as no other is made for that index. */
void *anywhere(size_t list, size_t bytes);

/* What the function answers. */
uint64_t run(const struct question *question, const struct list *lists);

/* Whether two runs have left the same in every list. */
int is_same(const struct question *question, const struct list *one, const struct list *other);

/* Runs a test in a process of its own, so that one that dies is reported with its last question. Prints the closing line; answers the status. */
int watched(const char *title, void (*test)(void));

/* Counts whether a question was answered as it should; reports it where it was not. */
void verdict(const struct question *question, const char *title, int holds);

/* The question that is being asked. */
void asks(const struct question *question);

#endif
