/* The sheet of Column[`abcdef`, Row[`a`, `b`]] by the C library, with spare width shared by all (List):
 *
 *     library/archive
 *     mkdir -p target && cc -Iinclude examples/sheet.c crates/c_api/out/libc_api.a -o target/sheet && target/sheet
 */
#include <stdio.h>

#include "leg_sheet.h"

int main(void) {
    static const uint8_t settings[LEG_SETTINGS_BYTES] = "\x10\x00\x1C" "--||-|+++++++++" "\x01\x01\x00\x00" "    " "\x00\x00\x00\x02\x02";
    static const uint8_t tree[] = {3, 0, 20, 1, 0, 6, 'a', 'b', 'c', 'd', 'e', 'f', 2, 0, 8, 1, 0, 1, 'a', 1, 0, 1, 'b'};
    static uint8_t out[LEG_SHEET];
    uint64_t word = leg_print_sheet(settings, sizeof settings, tree, sizeof tree, out, sizeof out);
    if (LEG_NUMBER(word) != 0) {
        printf("refused %u\n", LEG_NUMBER(word));
        return 1;
    }
    printf("%.*s\n", (int)LEG_COUNT(word), (const char *)out);
    return 0;
}
