/* A key and its question paper from one layout, with the C library:
 *
 *     library/archive
 *     mkdir -p target && cc -Iinclude examples/paper.c crates/c_api/out/libc_api.a -o target/paper && target/paper
 */
#include <stdio.h>

#include "leg_sheet.h"

static const uint8_t settings[LEG_SETTINGS_BYTES] = "\x10\x00\x1C" "--||-|+++++++++" "\x01\x01\x00\x00" "    " "\x00\x00\x00\x01\x02";
/* Column[`Q1: Vy?`, Row[`54 kt`, `6 s`]], and the nodes of its answers. */
static const uint8_t key[] = "\x03\x00\x1B" "\x01\x00\x07" "Q1: Vy?" "\x02\x00\x0E" "\x01\x00\x05" "54 kt" "\x01\x00\x03" "6 s";
static const uint16_t answers[] = {3, 4};

static uint8_t paper[sizeof key - 1];

/* The sheet of a tree. */
static void show(const uint8_t *tree) {
    static uint8_t out[LEG_SHEET];
    uint64_t word = leg_print_sheet(settings, sizeof settings, tree, sizeof paper, out, sizeof out);
    if (LEG_NUMBER(word) == 0) printf("%.*s\n", (int)LEG_COUNT(word), (const char *)out);
    else printf("refused %u\n", LEG_NUMBER(word));
}

int main(void) {
    uint64_t word = leg_blank(key, sizeof paper, answers, 2, paper, sizeof paper);
    if (LEG_NUMBER(word) != 0) {
        printf("refused %u\n", LEG_NUMBER(word));
        return 1;
    }
    show(key);
    show(paper);
    return 0;
}
