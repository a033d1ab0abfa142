/* Places of the sheet of sheet.c and the leaves that have them, in one call of the C library:
 *
 *     library/archive
 *     mkdir -p target && cc -Iinclude examples/mark.c crates/c_api/out/libc_api.a -o target/mark && target/mark
 */
#include <stdio.h>

#include "leg_sheet.h"

enum { PLACES = 4 };

int main(void) {
    static const uint8_t settings[LEG_SETTINGS_BYTES] = "\x10\x00\x1C" "--||-|+++++++++" "\x01\x01\x00\x00" "    " "\x00\x00\x00\x02\x02";
    static const uint8_t tree[] = {3, 0, 20, 1, 0, 6, 'a', 'b', 'c', 'd', 'e', 'f', 2, 0, 8, 1, 0, 1, 'a', 1, 0, 1, 'b'};
    static const size_t marked[PLACES][2] = {{1, 2}, {4, 9}, {3, 2}, {4, 9}}; /* lines and columns, from 0 */
    uint64_t places[PLACES], answers[PLACES], read;
    for (size_t i = 0; i < PLACES; i++) places[i] = LEG_AT(marked[i][0], marked[i][1]);
    uint64_t word = leg_places(settings, sizeof settings, tree, sizeof tree, places, PLACES, answers, PLACES, &read);
    if (LEG_NUMBER(word) != 0) {
        printf("refused %u\n", LEG_NUMBER(word));
        return 1;
    }
    for (size_t i = 0; i < LEG_COUNT(word); i++)
        printf("node %zu: line %zu, column %zu of its block\n", LEG_NODE(answers[i]), LEG_LINE(answers[i]), LEG_COLUMN(answers[i]));
    printf("elements read: %u\n", (unsigned)read);
    return 0;
}
