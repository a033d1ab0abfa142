/* The library's functions with a fault. FAULT names a function, whose count is then one too large where it accepts; or, after a minus sign, one whose refusals have the next number. Linked by --wrap for each name
 * of FUNCTIONS, which fuzz/check takes from include/leg_sheet.h. Arguments are numbers and pointers alone, so that nine words carry those of any function. */
#include <stdint.h>
#include <stdlib.h>
#include <string.h>

typedef uint64_t W;

static int is_fault(const char *name) {
    const char *fault = getenv("FAULT");
    return fault != NULL && strcmp(fault, name) == 0;
}

static W answered(const char *name, const char *minus, W word) {
    return word >> 32 == 0 ? word + is_fault(name) : word + ((W)is_fault(minus) << 32);
}

#define WRAP(name) \
    W __real_##name(W a, W b, W c, W d, W e, W f, W g, W h, W i); \
    W __wrap_##name(W a, W b, W c, W d, W e, W f, W g, W h, W i) { \
        return answered(#name, "-" #name, __real_##name(a, b, c, d, e, f, g, h, i)); \
    }
FUNCTIONS
