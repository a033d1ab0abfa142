// Times each C function of two libraries on fixed inputs, by turns; bench/beside links them, the one's functions as OLD_leg_.., the other's as NEW_leg_.. A line for each
// call: its function and input, and nanoseconds of either, the least of many runs.
#include <time.h>

#include "functions.h"

static double least[2];

static double nanoseconds(void) {
    struct timespec t;
    clock_gettime(CLOCK_MONOTONIC, &t);
    return 1e9 * (double)t.tv_sec + (double)t.tv_nsec;
}

static void timed(const char *function);

// One run: so many calls, each after `first`.
#define TIME(side, calls, first, function, ...)                           \
    do {                                                                  \
        double start = nanoseconds();                                     \
        for (size_t call = 0; call < (calls); call++) {                   \
            first;                                                        \
            word = function(__VA_ARGS__);                                 \
        }                                                                 \
        double each = (nanoseconds() - start) / (double)(calls);          \
        if (least[side] == 0 || each < least[side])                       \
            least[side] = each;                                           \
    } while (0)

// Runs of some 20 microseconds, by turns.
#define TURNS(first, function, ...)                                       \
    do {                                                                  \
        least[0] = least[1] = 0;                                          \
        TIME(0, 10, first, OLD_##function, __VA_ARGS__);                  \
        size_t calls = 1 + (size_t)(20000 / least[0]);                    \
        for (size_t round = 0; round < 60; round++) {                     \
            TIME(0, calls, first, OLD_##function, __VA_ARGS__);           \
            TIME(1, calls, first, NEW_##function, __VA_ARGS__);           \
        }                                                                 \
        timed(#function);                                                 \
    } while (0)

#define CALL(function, ...) TURNS((void)0, function, __VA_ARGS__)

// Each call on the memory as it was.
#define CHANGE(memory, bytes, function, ...)                              \
    do {                                                                  \
        static uint8_t kept[sizeof memory];                               \
        memcpy(kept, memory, bytes);                                      \
        TURNS(memcpy(memory, kept, bytes), function, __VA_ARGS__);        \
    } while (0)

#include "calls.h"

static void timed(const char *function) { printf("%s %s %.1f %.1f\n", function, input, least[0], least[1]); }

int main(void) {
    all_calls();
    return 0;
}
