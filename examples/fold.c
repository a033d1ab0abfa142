/* A list of legs folded into Columns of one Row that fit a width, and the sheet of that Row, with the C library:
 *
 *     library/archive
 *     mkdir -p target && cc -Iinclude examples/fold.c crates/c_api/out/libc_api.a -o target/fold && target/fold
 */
#include <stdio.h>
#include <string.h>

#include "leg_sheet.h"

enum { WIDTH = 40, LEGS = 5 };

static const uint8_t settings[LEG_SETTINGS_BYTES] = "\x10\x00\x1C" "--||-|+++++++++" "\x01\x01\x00\x00" "    " "\x00\x00\x00\x01\x02";
static const char *const legs[LEGS] = {"1 Home pad", "2 Dam, west end", "3 Spillway", "4 Dam, east end", "5 Jetty"};

/* Writes an element's tag and length; answers where its contents begin. */
static size_t head(uint8_t *bytes, size_t at, int tag, size_t length) {
    bytes[at] = (uint8_t)tag;
    bytes[at + 1] = (uint8_t)(length / 256);
    bytes[at + 2] = (uint8_t)(length % 256);
    return at + 3;
}

int main(void) {
    static uint8_t list[1000], row[1000], out[LEG_SHEET];
    size_t len = 3;
    for (size_t i = 0; i < LEGS; i++) {
        size_t length = strlen(legs[i]);
        memcpy(list + head(list, len, 1, length), legs[i], length);
        len += 3 + length;
    }
    head(list, 0, 3, len - 3);

    uint16_t columns[LEG_CELLS];
    uint64_t found[LEG_FOUND];
    uint64_t word = leg_fold(settings, sizeof settings, list, len, WIDTH, SIZE_MAX, columns, LEG_CELLS, found);
    if (LEG_NUMBER(word) != 0) {
        printf("refused %u\n", LEG_NUMBER(word));
        return 1;
    }
    printf("Columns: %zu, height: %u, tries: %u, miss: %u\n", LEG_COUNT(word), (unsigned)found[0], (unsigned)found[1], (unsigned)found[2]);

    /* The Row: the list's Cells as they are, those of each Column behind its tag and length. */
    size_t from = 3, to = 3;
    for (size_t i = 0; i < LEG_COUNT(word); i++) {
        size_t end = from;
        for (size_t cell = 0; cell < columns[i]; cell++) end += 3 + (size_t)list[end + 1] * 256 + list[end + 2];
        to = head(row, to, 3, end - from);
        memcpy(row + to, list + from, end - from);
        to += end - from;
        from = end;
    }
    head(row, 0, 2, to - 3);
    word = leg_print_sheet(settings, sizeof settings, row, to, out, sizeof out);
    if (LEG_NUMBER(word) != 0) {
        printf("refused %u\n", LEG_NUMBER(word));
        return 1;
    }
    printf("%.*s\n", (int)LEG_COUNT(word), (const char *)out);
    return 0;
}
