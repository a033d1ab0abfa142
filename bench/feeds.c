// Times the ways of crates/feeds_bench to measure a Cell of 32,765 text bytes: without a line feed, and in lines of some letters. All are timed alternately, in one run; a time
// is the least of many, for one call. It answers 1 where the words miss a bar beside the search of before.
//   feeds               the table
//   feeds NAME LETTERS  one call on that text (0: no line feed), as for `valgrind --tool=callgrind --toggle-collect=NAME`
#include <inttypes.h>
#include <stddef.h>
#include <stdio.h>
#include <stdlib.h>
#include <string.h>
#include <time.h>

typedef uint64_t measure(const uint8_t *text, size_t text_len);
measure leg_count_plain, leg_measure_plain, leg_measure_search, leg_measure_words;

enum { BYTES = 32765, ROUNDS = 6000, CALLS = 4, WAYS = 4 };
enum { COUNT, PLAIN, SEARCH, WORDS };

static const struct { const char *name; measure *way; } ways[WAYS] = {
    [COUNT] = {"leg_count_plain", leg_count_plain},
    [PLAIN] = {"leg_measure_plain", leg_measure_plain},
    [SEARCH] = {"leg_measure_search", leg_measure_search},
    [WORDS] = {"leg_measure_words", leg_measure_words},
};

// The letters of a line, and the most that the words may take for each nanosecond of the search.
static const struct { size_t letters; double bar; } texts[] = {{0, 1.1}, {396, 1.1}, {80, 1.1}, {40, 1}, {20, 1}, {8, 1}};

static uint8_t text[BYTES];
static volatile uint64_t kept;

// Lines of this many letters, or one without a line feed; the answer is how many line feeds there are.
static uint64_t fill(size_t letters) {
    uint64_t feeds = 0;
    memset(text, 'x', BYTES);
    for (size_t at = letters; letters != 0 && at < BYTES; at += letters + 1) {
        text[at] = '\n';
        feeds++;
    }
    return feeds;
}

static double now(void) {
    struct timespec t;
    clock_gettime(CLOCK_MONOTONIC, &t);
    return t.tv_sec * 1e9 + t.tv_nsec;
}

// The least nanoseconds of a call, of each way; those that go byte by byte take no part in most rounds.
static void least(double best[WAYS]) {
    for (int way = 0; way < WAYS; way++)
        best[way] = 1e18;
    for (int round = 0; round < ROUNDS; round++)
        for (int way = round % 20 == 0 ? 0 : SEARCH; way < WAYS; way++) {
            double begun = now();
            for (int call = 0; call < CALLS; call++)
                kept = ways[way].way(text, BYTES);
            double took = (now() - begun) / CALLS;
            if (took < best[way])
                best[way] = took;
        }
}

// Whether all ways agree on the text.
static int agree(uint64_t feeds) {
    uint64_t size = leg_measure_plain(text, BYTES);
    return size % 65536 == feeds + 1 && leg_count_plain(text, BYTES) == feeds && leg_measure_search(text, BYTES) == size && leg_measure_words(text, BYTES) == size;
}

static int table(void) {
    int missed = 0;
    printf("ns for %d bytes. ratio: words divided by search, before.\n", BYTES);
    printf("%8s %6s %12s %13s %14s %8s %6s %4s\n", "letters", "feeds", "plain count", "plain measure", "search, before", "words", "ratio", "bar");
    for (size_t i = 0; i < sizeof texts / sizeof *texts; i++) {
        double best[WAYS];
        uint64_t feeds = fill(texts[i].letters);
        if (!agree(feeds)) {
            printf("%zu letters: the ways do not agree\n", texts[i].letters);
            return 1;
        }
        least(best);
        double ratio = best[WORDS] / best[SEARCH];
        int over = ratio > texts[i].bar;
        printf("%8zu %6" PRIu64 " %12.0f %13.0f %14.0f %8.0f %6.2f %4.1f%s\n", texts[i].letters, feeds, best[COUNT], best[PLAIN], best[SEARCH], best[WORDS], ratio, texts[i].bar, over ? " MISSED" : "");
        missed |= over;
    }
    return missed;
}

int main(int count, char **word) {
    if (count != 3)
        return table();
    fill(strtoul(word[2], NULL, 10));
    for (int way = 0; way < WAYS; way++)
        if (strcmp(ways[way].name, word[1]) == 0)
            printf("%" PRIu64 "\n", ways[way].way(text, BYTES));
    return 0;
}
