/* Every question in a thread that has no more stack than leg_sheet.h requires; below it is a page that can be neither read nor written. Prints the most that was used. */
#include <pthread.h>
#include <stdio.h>
#include <stdlib.h>
#include <string.h>
#include <sys/mman.h>
#include <unistd.h>

#include "lent.h"

enum { STACK = 96 * 1024, PATTERN = 0x5A };

static const struct question *asked;
static struct list lists[LISTS];
static uint64_t answer;

static void *ask(void *nothing) {
    answer = run(asked, lists);
    return nothing;
}

/* Runs a thread on this stack, and answers how much of it was touched. */
static size_t used(uint8_t *stack, void *(*body)(void *)) {
    pthread_attr_t attributes;
    pthread_t thread;
    size_t free_bytes = 0;
    memset(stack, PATTERN, STACK);
    pthread_attr_init(&attributes);
    if (pthread_attr_setstack(&attributes, stack, STACK) != 0 || pthread_create(&thread, &attributes, body, NULL) != 0) abort();
    pthread_join(thread, NULL);
    pthread_attr_destroy(&attributes);
    while (free_bytes < STACK && stack[free_bytes] == PATTERN) free_bytes++;
    return STACK - free_bytes;
}

static void test(void) {
    size_t n, count, lengths[LISTS], most = 0, page = (size_t)sysconf(_SC_PAGESIZE);
    const struct question *all = questions(&count);
    const char *deepest = "";
    uint8_t *stack = mmap(NULL, page + STACK, PROT_READ | PROT_WRITE, MAP_PRIVATE | MAP_ANONYMOUS, -1, 0);
    if (stack == MAP_FAILED || mprotect(stack, page, PROT_NONE) != 0) abort();
    for (n = 0; n < count; n++) {
        uint64_t word;
        size_t bytes;
        asked = all + n;
        asks(asked);
        word = exact_lengths(asked, lengths);
        lend(asked, lengths, anywhere, lists);
        bytes = used(stack + page, ask);
        verdict(asked, "on a small stack another answer", answer == word);
        if (bytes > most) {
            most = bytes;
            deepest = asked->call->name;
        }
    }
    printf("stack: %zu of %d bytes at the most, by %s\n", most, STACK, deepest);
}

int main(void) {
    return watched("stack", test);
}
