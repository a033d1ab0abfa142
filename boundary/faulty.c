/* leg_print_sheet with a fault, by number, to try the tests on: it is linked instead of the proved one (-Wl,--wrap=leg_print_sheet). */
#include <sched.h>
#include <string.h>

#include "leg_sheet.h"

uint64_t __real_leg_print_sheet(const uint8_t *settings, size_t settings_len, const uint8_t *tree, size_t tree_len, uint8_t *out, size_t out_len);
uint64_t __wrap_leg_print_sheet(const uint8_t *settings, size_t settings_len, const uint8_t *tree, size_t tree_len, uint8_t *out, size_t out_len);

uint64_t __wrap_leg_print_sheet(const uint8_t *settings, size_t settings_len, const uint8_t *tree, size_t tree_len, uint8_t *out, size_t out_len) {
    volatile uint8_t seen;
    uint64_t word;
#if FAULT == 1 /* reads behind a list */
    seen = tree[tree_len];
#elif FAULT == 2 /* and before it */
    seen = settings[-1];
#elif FAULT == 3 /* keeps what it prints where all threads do */
    static uint8_t kept[LEG_SHEET];
    word = __real_leg_print_sheet(settings, settings_len, tree, tree_len, kept, out_len < LEG_SHEET ? out_len : LEG_SHEET);
    sched_yield();
    memcpy(out, kept, LEG_COUNT(word));
    return word;
#elif FAULT == 4 /* takes more stack */
    volatile uint8_t room[90 * 1024];
    memset((uint8_t *)room, 0, sizeof room);
    seen = room[settings_len];
#endif
    word = __real_leg_print_sheet(settings, settings_len, tree, tree_len, out, out_len);
#if FAULT == 5 /* writes behind what it prints */
    if (LEG_NUMBER(word) == 0 && out_len > LEG_COUNT(word)) out[LEG_COUNT(word)] = 0;
#elif FAULT == 6 /* writes beside a refusal */
    if (LEG_NUMBER(word) != 0 && out_len > 0) out[0] = 0;
#elif FAULT == 7 /* writes behind the list */
    if (LEG_NUMBER(word) == 0) out[out_len] = 0;
#elif FAULT == 8 /* is content with one byte less */
    if (LEG_NUMBER(word) == LEG_TOO_SHORT) word = 0;
#endif
    (void)seen;
    return word;
}
