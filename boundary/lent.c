#include <stdio.h>
#include <stdlib.h>
#include <string.h>
#include <sys/mman.h>
#include <sys/wait.h>
#include <unistd.h>

#include "lent.h"

/* More than any function writes. */
enum { AMPLE = 70000 };

/* What is shared with the process that watches. */
static struct {
    const struct question *question;
    size_t passed, failed;
} *told;

void *anywhere(size_t list, size_t bytes) {
    static void *room[LISTS];
    free(room[list]);
    /* At its very size, so that memory checkers see its end. */
    room[list] = malloc(bytes ? bytes : 1);
    return room[list];
}

uint64_t run(const struct question *question, const struct list *lists) {
    return question->call->run(lists, question->numbers);
}

void lend(const struct question *question, const size_t *lengths, placing place, struct list *lists) {
    size_t n, at;
    for (n = 0; n < question->call->count; n++) {
        const struct parameter *parameter = question->call->lists + n;
        size_t bytes = lengths[n] * parameter->size, given = question->given[n].length * parameter->size;
        uint8_t *items = place(n, bytes);
        for (at = 0; at < bytes; at++) items[at] = parameter->use == WRITTEN ? (uint8_t)(at ^ 0xA5) : 0;
        if (parameter->use != WRITTEN && bytes > 0) memcpy(items, question->given[n].items, given < bytes ? given : bytes);
        lists[n].items = items;
        lists[n].length = lengths[n];
    }
}

uint64_t exact_lengths(const struct question *question, size_t *lengths) {
    struct list lists[LISTS];
    uint64_t word;
    size_t n;
    for (n = 0; n < question->call->count; n++) {
        const struct parameter *parameter = question->call->lists + n;
        lengths[n] = parameter->use != WRITTEN ? question->given[n].length : parameter->is_bound ? parameter->fixed : AMPLE;
    }
    lend(question, lengths, anywhere, lists);
    word = run(question, lists);
    for (n = 0; n < question->call->count && LEG_NUMBER(word) == 0; n++) {
        const struct parameter *parameter = question->call->lists + n;
        if (parameter->use == WRITTEN) lengths[n] = parameter->fixed + parameter->each * LEG_COUNT(word);
    }
    return word;
}

int is_same(const struct question *question, const struct list *one, const struct list *other) {
    size_t n;
    for (n = 0; n < question->call->count; n++) {
        if (one[n].length != other[n].length) return 0;
        if (memcmp(one[n].items, other[n].items, one[n].length * question->call->lists[n].size) != 0) return 0;
    }
    return 1;
}

void asks(const struct question *question) {
    told->question = question;
}

void verdict(const struct question *question, const char *title, int holds) {
    if (holds) {
        told->passed++;
        return;
    }
    told->failed++;
    printf("%s: %s\n", question->call->name, title);
}

int watched(const char *title, void (*test)(void)) {
    int status;
    pid_t child;
    size_t count;
    questions(&count); /* which both processes have, at the same places */
    told = mmap(NULL, sizeof *told, PROT_READ | PROT_WRITE, MAP_SHARED | MAP_ANONYMOUS, -1, 0);
    if (told == MAP_FAILED) return 2;
    fflush(stdout);
    child = fork();
    if (child == 0) {
        test();
        fflush(stdout);
        _exit(0);
    }
    if (waitpid(child, &status, 0) != child || status != 0) {
        printf("%s: died by signal %d at %s\n", title, WTERMSIG(status), told->question ? told->question->call->name : "its start");
        told->failed++;
    }
    printf("%zu passed, %zu failed\n", told->passed, told->failed);
    return told->failed == 0 && told->passed > 0 ? 0 : 1;
}
