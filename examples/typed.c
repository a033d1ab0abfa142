/* The sheet of a typed list, or where it has a fault, with the C library:
 *
 *     library/archive
 *     mkdir -p target && cc -Iinclude examples/typed.c crates/c_api/out/libc_api.a -o target/typed && target/typed
 */
#include <stdio.h>
#include <string.h>

#include "leg_sheet.h"

static const uint8_t settings[31] = "\x10\x00\x1C" "--||-|+++++++++" "\x01\x01\x00\x00" "    " "\x00\x00\x00\x01\x02";

/* The sheet of a list, or the fault and its place. */
static void show(const char *list) {
    static uint8_t tree[LEG_TREE], out[64159];
    uint64_t word = leg_read_typed((const uint8_t *)list, strlen(list), tree, sizeof tree);
    if (LEG_NUMBER(word) != 0) {
        printf("line %zu, column %zu: refused %u\n", LEG_FAULT_LINE(word), LEG_FAULT_COLUMN(word), LEG_NUMBER(word));
        return;
    }
    word = leg_print_sheet(settings, sizeof settings, tree, LEG_COUNT(word), out, sizeof out);
    if (LEG_NUMBER(word) == 0) printf("%.*s\n", (int)LEG_COUNT(word), (const char *)out);
    else printf("refused %u\n", LEG_NUMBER(word));
}

int main(void) {
    show("# a leg\n"
         "row\n"
         "  1\n"
         "  column\n"
         "    Home pad\n"
         "    '# 4 of 7\n"
         "  take off\\nhold 10 s\n");
    show("row\n"
         "   Home pad\n");
    return 0;
}
