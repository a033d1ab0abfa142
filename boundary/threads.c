/* Eight threads at once, each on every question, beginning with another one: each answer and each list is what one thread alone got. The lists that are only read are the same memory for all. */
#include <pthread.h>
#include <stdio.h>
#include <stdlib.h>

#include "lent.h"

enum { THREADS = 8, ROUNDS = 10 };

/* What one thread alone got. */
static struct answer {
    size_t lengths[LISTS];
    struct list lists[LISTS];
    uint64_t word;
} *alone;

static const struct question *all;
static size_t count;

static void *fresh(size_t list, size_t bytes) {
    (void)list;
    return malloc(bytes ? bytes : 1);
}

/* Asks a question on lists of its own; those that are only read are everyone's. Answers whether all is as with one thread. */
static int ask(size_t n) {
    const struct question *question = all + n;
    struct list lists[LISTS];
    uint64_t word;
    size_t list;
    int holds;
    lend(question, alone[n].lengths, fresh, lists);
    for (list = 0; list < question->call->count; list++) {
        if (question->call->lists[list].use != READ) continue;
        free(lists[list].items);
        lists[list] = alone[n].lists[list];
    }
    word = run(question, lists);
    holds = word == alone[n].word && is_same(question, lists, alone[n].lists);
    for (list = 0; list < question->call->count; list++) {
        if (question->call->lists[list].use != READ) free(lists[list].items);
    }
    return holds;
}

/* The first question that was answered otherwise, or as many as there are. */
static void *ask_all(void *first) {
    size_t n, round, *other = first;
    size_t start = *other * count / THREADS;
    for (round = 0; round < ROUNDS; round++) {
        for (n = 0; n < count; n++) {
            size_t at = (start + n) % count;
            if (!ask(at)) {
                *other = at;
                return NULL;
            }
        }
    }
    *other = count;
    return NULL;
}

static void test(void) {
    pthread_t threads[THREADS];
    size_t n, other[THREADS];
    all = questions(&count);
    alone = calloc(count, sizeof *alone);
    for (n = 0; n < count; n++) {
        asks(all + n);
        exact_lengths(all + n, alone[n].lengths);
        lend(all + n, alone[n].lengths, fresh, alone[n].lists);
        alone[n].word = run(all + n, alone[n].lists);
    }
    for (n = 0; n < THREADS; n++) {
        other[n] = n;
        if (pthread_create(threads + n, NULL, ask_all, other + n) != 0) abort();
    }
    for (n = 0; n < THREADS; n++) {
        pthread_join(threads[n], NULL);
        verdict(all + other[n] % count, "in one of eight threads another answer", other[n] == count);
    }
    printf("threads: %d at once, %zu calls each, on all functions\n", THREADS, ROUNDS * count);
}

int main(void) {
    return watched("threads", test);
}
