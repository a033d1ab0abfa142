/* Every function with its lists beside pages that can be neither read nor written: at their end, then at their beginning; each list one item shorter than needed, exactly as long, and one longer.
 * Nothing outside a list is touched, and what is answered and written is the same as anywhere else in memory. */
#include <sys/mman.h>
#include <unistd.h>

#include "lent.h"

static size_t page;

/* This many bytes in whole pages, with a page on either side that cannot be touched. Answers where they start; `whole` is how many they are. */
static uint8_t *between_guards(size_t list, size_t bytes, size_t *whole) {
    static struct list mapped[LISTS];
    uint8_t *start;
    if (mapped[list].items) munmap(mapped[list].items, mapped[list].length);
    *whole = (bytes / page + 1) * page;
    start = mmap(NULL, *whole + 2 * page, PROT_NONE, MAP_PRIVATE | MAP_ANONYMOUS, -1, 0);
    mapped[list].items = start;
    mapped[list].length = *whole + 2 * page;
    mprotect(start + page, *whole, PROT_READ | PROT_WRITE);
    return start + page;
}

static void *at_the_end(size_t list, size_t bytes) {
    size_t whole;
    uint8_t *start = between_guards(list, bytes, &whole);
    return start + whole - bytes;
}

static void *at_the_beginning(size_t list, size_t bytes) {
    size_t whole;
    return between_guards(list, bytes, &whole);
}

/* Whether the written lists are as they were lent. */
static int is_kept(const struct question *question, const struct list *lists) {
    size_t n, at;
    for (n = 0; n < question->call->count; n++) {
        const struct parameter *parameter = question->call->lists + n;
        const uint8_t *items = lists[n].items;
        if (parameter->use != WRITTEN) continue;
        for (at = 0; at < lists[n].length * parameter->size; at++) {
            if (items[at] != (uint8_t)(at ^ 0xA5)) return 0;
        }
    }
    return 1;
}

/* Whether the last item of a list is as it was lent. */
static int is_last_kept(const struct list *list, size_t size) {
    const uint8_t *items = list->items;
    size_t at;
    for (at = (list->length - 1) * size; at < list->length * size; at++) {
        if (items[at] != (uint8_t)(at ^ 0xA5)) return 0;
    }
    return 1;
}

/* The question on lists of these lengths: anywhere, and beside guard pages. */
static uint64_t ask(const struct question *question, const size_t *lengths, struct list *plain) {
    struct list guarded[LISTS];
    uint64_t word;
    lend(question, lengths, anywhere, plain);
    word = run(question, plain);
    lend(question, lengths, at_the_end, guarded);
    verdict(question, "before a guard page another answer", run(question, guarded) == word && is_same(question, plain, guarded));
    lend(question, lengths, at_the_beginning, guarded);
    verdict(question, "behind a guard page another answer", run(question, guarded) == word && is_same(question, plain, guarded));
    return word;
}

/* One list shorter by one, or longer, and all others as long as needed. */
static void vary(const struct question *question, size_t *lengths, size_t list, int is_accepted) {
    const struct parameter *parameter = question->call->lists + list;
    struct list plain[LISTS];
    uint64_t word;
    lengths[list]++;
    word = ask(question, lengths, plain);
    if (parameter->use == WRITTEN && is_accepted) {
        verdict(question, "with one item more it is not accepted, or that item was written", LEG_NUMBER(word) == 0 && is_last_kept(plain + list, parameter->size));
    }
    lengths[list]--;
    if (lengths[list] == 0) return;
    lengths[list]--;
    word = ask(question, lengths, plain);
    if (parameter->use == WRITTEN && is_accepted) {
        verdict(question, "with one item less it is not refused with 8, or something was written", word == (uint64_t)LEG_TOO_SHORT << 32 && is_kept(question, plain));
    }
    lengths[list]++;
}

static void test(void) {
    size_t count, n, list, lengths[LISTS];
    const struct question *all = questions(&count);
    struct list plain[LISTS];
    size_t accepted[64] = {0};
    for (n = 0; n < count; n++) {
        const struct question *question = all + n;
        uint64_t word;
        asks(question);
        word = exact_lengths(question, lengths);
        verdict(question, "with as many items as needed another answer", ask(question, lengths, plain) == word);
        if (LEG_NUMBER(word) != 0) verdict(question, "a refusal has written", is_kept(question, plain));
        else accepted[question->call - CALLS]++;
        for (list = 0; list < question->call->count; list++) {
            if (!question->call->lists[list].is_bound) vary(question, lengths, list, LEG_NUMBER(word) == 0);
        }
    }
    for (n = 0; n < CALLS_COUNT; n++) {
        const struct question none = {CALLS + n, {{NULL, 0}}, {0}};
        verdict(&none, "never accepted", accepted[n] > 0);
    }
}

int main(void) {
    page = (size_t)sysconf(_SC_PAGESIZE);
    return watched("guard pages", test);
}
