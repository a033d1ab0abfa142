/* A tree built element by element, and its sheet by the C library (docs/FORMS.md):
 *
 *     library/archive
 *     mkdir -p target && cc -Iinclude examples/build.c crates/c_api/out/libc_api.a -o target/build && target/build
 */
#include <stdio.h>

#include "leg_sheet.h"

enum { CELL = 1, ROW = 2, COLUMN = 3 };

/* A tree has at most 32,768 bytes. Bytes past them are counted and not kept. */
struct tree {
    uint8_t bytes[32768];
    size_t len;
};

static void put(struct tree *t, size_t at, size_t byte) {
    if (at < sizeof t->bytes) t->bytes[at] = (uint8_t)byte;
}

static void add(struct tree *t, size_t byte) { put(t, t->len++, byte); }

/* Begins an element, its length still 0; answers where it begins. */
static size_t begin(struct tree *t, int tag) {
    size_t start = t->len;
    add(t, (size_t)tag);
    add(t, 0);
    add(t, 0);
    return start;
}

/* Ends the element that begins there: all that was added after its first three bytes is its contents. */
static void end(struct tree *t, size_t start) {
    size_t length = t->len - start - 3;
    put(t, start + 1, length / 256);
    put(t, start + 2, length % 256);
}

static void cell(struct tree *t, const char *text) {
    size_t start = begin(t, CELL);
    while (*text) add(t, (unsigned char)*text++);
    end(t, start);
}

static const uint8_t settings[] =
    "\x10\x00\x1C"     /* tag, length 28 */
    "--||-|+++++++++"  /* marks */
    "\x01\x01\x00\x00" /* padding left, right, top, bottom */
    "    "             /* their fills */
    "\x00\x00"         /* alignment left, top */
    "\x00"             /* line mode */
    "\x02\x02";        /* width and height priority: List */

int main(void) {
    static struct tree t;
    size_t sheet = begin(&t, COLUMN);
    cell(&t, "Survey 17, reservoir north bank");
    size_t leg = begin(&t, ROW);
    cell(&t, "1");
    size_t point = begin(&t, COLUMN);
    cell(&t, "Home pad");
    cell(&t, "47.2101 N");
    end(&t, point);
    cell(&t, "take off\nhold 10 s");
    end(&t, leg);
    end(&t, sheet);
    if (t.len > sizeof t.bytes) {
        printf("the tree is too long\n");
        return 1;
    }

    static uint8_t out[LEG_SHEET]; /* the largest sheet */
    uint64_t word = leg_print_sheet(settings, 31, t.bytes, t.len, out, sizeof out);
    if (LEG_NUMBER(word) != 0) {
        printf("refused %u\n", LEG_NUMBER(word));
        return 1;
    }
    printf("%.*s\n", (int)LEG_COUNT(word), (const char *)out);
    return 0;
}
