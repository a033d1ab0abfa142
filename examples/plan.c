/* How large a sheet will be whose last Cell has no text yet, with the C library:
 *
 *     library/archive
 *     mkdir -p target && cc -Iinclude examples/plan.c crates/c_api/out/libc_api.a -o target/plan && target/plan
 */
#include <stdio.h>

#include "leg_sheet.h"

static const uint8_t settings[LEG_SETTINGS_BYTES] = "\x10\x00\x1C" "--||-|+++++++++" "\x01\x01\x00\x00" "    " "\x00\x00\x00\x01\x02";
/* Column[`abcd`, a text of 2 to 6 columns and 1 to 3 lines]. */
static const uint8_t tree[] = {3, 0, 14, 1, 0, 4, 'a', 'b', 'c', 'd', 4, 0, 4, 2, 6, 1, 3};

int main(void) {
    uint32_t ends[LEG_ENDS];
    uint64_t word = leg_plan(settings, sizeof settings, tree, sizeof tree, ends);
    if (LEG_NUMBER(word) != 0) {
        printf("refused %u\n", LEG_NUMBER(word));
        return 1;
    }
    printf("columns: %u to %u, lines: %u to %u\n", (unsigned)ends[0], (unsigned)ends[1], (unsigned)ends[2], (unsigned)ends[3]);
    return 0;
}
