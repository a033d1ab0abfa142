/* Drafts of a sheet kept in a store, the first of them changed, and each returned to, with the C library:
 *
 *     library/archive
 *     mkdir -p target && cc -Iinclude examples/drafts.c crates/c_api/out/libc_api.a -o target/drafts && target/drafts
 */
#include <stdio.h>

#include "leg_sheet.h"

static const uint8_t settings[LEG_SETTINGS_BYTES] = "\x10\x00\x1C" "--||-|+++++++++" "\x01\x01\x00\x00" "    " "\x00\x00\x00\x01\x02";
/* Row[`1`, `Home pad`]; the same with `take off` behind it; Column[`Home pad`]. */
static const uint8_t row[] = "\x02\x00\x0F" "\x01\x00\x01" "1" "\x01\x00\x08" "Home pad";
static const uint8_t longer[] = "\x02\x00\x1A" "\x01\x00\x01" "1" "\x01\x00\x08" "Home pad" "\x01\x00\x08" "take off";
static const uint8_t column[] = "\x03\x00\x0B" "\x01\x00\x08" "Home pad";

/* No draft yet: static bytes are 0. Two of these trees fit, not all three. */
static uint8_t store[60];

static void save(char name, const uint8_t *tree, size_t len) {
    uint64_t word = leg_save_draft(store, sizeof store, (uint8_t)name, tree, len);
    printf("save %c: %u\n", name, LEG_NUMBER(word));
}

/* The sheet of a draft. */
static void show(char name) {
    static uint8_t tree[LEG_TREE], out[LEG_SHEET];
    uint64_t word = leg_return_draft(store, sizeof store, (uint8_t)name, tree, sizeof tree);
    if (LEG_NUMBER(word) == 0) word = leg_print_sheet(settings, sizeof settings, tree, LEG_COUNT(word), out, sizeof out);
    if (LEG_NUMBER(word) == 0) printf("%.*s\n", (int)LEG_COUNT(word), (const char *)out);
    else printf("return %c: refused %u\n", name, LEG_NUMBER(word));
}

int main(void) {
    save('A', row, sizeof row - 1);
    save('B', column, sizeof column - 1);
    save('C', longer, sizeof longer - 1);
    save('A', longer, sizeof longer - 1);
    printf("forget B: %u\n", LEG_NUMBER(leg_forget_draft(store, sizeof store, 'B')));
    show('A');
    show('B');
    return 0;
}
