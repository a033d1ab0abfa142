/* Every constant of leg_sheet.h compared with what the functions do: the least length that is accepted, the greatest input, the place of each number in a list; and every refusal met under its name. */
#include <stdio.h>
#include <string.h>

#include "build.h"

static size_t passed, failed;

static void hold(int holds, int line, const char *what) {
    if (holds) {
        passed++;
        return;
    }
    failed++;
    printf("constants.c:%d: %s\n", line, what);
}

#define HOLDS(condition) hold(condition, __LINE__, #condition)
/* The call is accepted and counts this many; or it has this refusal. */
#define COUNTS(call, count) HOLDS((call) == (uint64_t)(count))
#define REFUSED(call, refusal) HOLDS((call) == (uint64_t)(refusal) << 32)

#define SETTINGS LEG_DEFAULTS, LEG_SETTINGS_BYTES
#define IN(list) (list).items, (list).length

static uint8_t out[LEG_SHEET + 1], other[LEG_TREE + 1], store[LEG_STORE];
static uint16_t numbers[LEG_RECORD + 1], more[LEG_LIST];
static uint32_t wide[LEG_LIST];

static struct list text_of(char byte, size_t length) {
    size_t start = mark(), at = begin(1);
    fill(byte, length);
    end(at);
    return taken(start);
}

/* This many empty Cells in a group. */
static struct list cells(uint8_t tag, size_t count) {
    size_t start = mark(), at = begin(tag);
    while (count-- > 0) cell("");
    end(at);
    return taken(start);
}

/* A Cell in this many Columns. */
static struct list nested(size_t depth) {
    size_t start = mark(), at[32], n;
    for (n = 0; n + 1 < depth; n++) at[n] = begin(3);
    cell("a");
    while (n-- > 0) end(at[n]);
    return taken(start);
}

/* Column[Row[`aaaa`, `b`], Row[`c`, `dd`]]: its leaves have different flags, lists and pairs. */
static struct list uneven(void) {
    size_t start = mark(), all = begin(3), row = begin(2);
    cell("aaaa");
    cell("b");
    end(row);
    row = begin(2);
    cell("c");
    cell("dd");
    end(row);
    end(all);
    return taken(start);
}

/* A text as wide and as tall as a sheet has room for, and so much more. */
static struct list large(size_t wider, size_t taller) {
    size_t start = mark(), at = begin(1);
    fill('x', LEG_WIDTH - 4 + wider);
    fill('\n', LEG_HEIGHT - 3 + taller);
    end(at);
    return taken(start);
}

static void words(void) {
    HOLDS(LEG_NUMBER(UINT64_C(0xFFFFFFFF)) == 0 && LEG_COUNT(UINT64_C(0xFFFFFFFF)) == 0xFFFFFFFF && LEG_FAULT_COLUMN(UINT64_C(0xFFFFFFFF)) == 0);
    HOLDS(LEG_NUMBER(UINT64_C(0xABCDEF27FFFFFFFF)) == 0x27 && LEG_COUNT(UINT64_C(0xABCDEF27FFFFFFFF)) == 0);
    HOLDS(LEG_FAULT_LINE(UINT64_C(0xABCDEF27FFFFFFFF)) == 0xABCDEF && LEG_FAULT_COLUMN(UINT64_C(0xABCDEF27FFFFFFFF)) == 0xFFFFFFFF);
    HOLDS(LEG_NUMBER(UINT64_C(5)) == LEG_ACCEPTED && LEG_COUNT(UINT64_C(5)) == 5);
    HOLDS(LEG_AT(3, 4) == (UINT64_C(3) << 32 | 4));
    HOLDS(LEG_AT(SIZE_MAX, 0) == UINT64_C(0xFFFFFFFF) << 32 && LEG_AT(0, UINT64_C(1) << 32) == 0xFFFFFFFF);
    HOLDS(LEG_32(0xFFFFFFFF) == 0xFFFFFFFF && LEG_32(0xFFFFFFFE) == 0xFFFFFFFE && LEG_32(0x80000000) == 0x80000000 && LEG_32(7) == 7);
    HOLDS(LEG_NODE(UINT64_C(0x1000200030004)) == 0x10002 && LEG_LINE(UINT64_C(0x1000200030004)) == 3 && LEG_COLUMN(UINT64_C(0x1000200030004)) == 4);
    HOLDS(LEG_LINE(UINT64_C(0xFFFF0000)) == 0xFFFF && LEG_COLUMN(UINT64_C(0xFFFF)) == 0xFFFF);
}

static void limits(void) {
    struct list tree = large(0, 0);
    COUNTS(leg_print_sheet(SETTINGS, IN(tree), out, LEG_SHEET), LEG_SHEET);
    REFUSED(leg_print_sheet(SETTINGS, IN(tree), out, LEG_SHEET - 1), LEG_TOO_SHORT);
    tree = large(1, 0);
    REFUSED(leg_print_sheet(SETTINGS, IN(tree), out, LEG_SHEET), LEG_TOO_LARGE);
    tree = large(0, 1);
    REFUSED(leg_print_sheet(SETTINGS, IN(tree), out, LEG_SHEET), LEG_TOO_LARGE);
    COUNTS(leg_read_tree(IN(cells(2, LEG_NODES - 1))), LEG_NODES);
    REFUSED(leg_read_tree(IN(cells(2, LEG_NODES))), LEG_TOO_MANY_NODES);
    COUNTS(leg_read_tree(IN(nested(LEG_DEPTH))), LEG_DEPTH);
    REFUSED(leg_read_tree(IN(nested(LEG_DEPTH + 1))), LEG_TOO_DEEP);
    COUNTS(leg_read_tree(IN(text_of('a', LEG_TREE - 3))), 1);
    REFUSED(leg_read_tree(IN(text_of('a', LEG_TREE - 2))), LEG_BAD_TREE);
}

/* Documents 01 and 02 have the default settings. */
static void defaults(void) {
    static const char marks[] = "--||-|+++++++++";
    static const uint16_t rest[] = {1, 1, 0, 0, ' ', ' ', ' ', ' ', 0, 0, 0, 1, 2};
    size_t n;
    COUNTS(leg_read_settings(SETTINGS, numbers, LEG_SETTINGS), LEG_SETTINGS);
    for (n = 0; n < 15; n++) HOLDS(numbers[n] == (uint16_t)marks[n]);
    for (n = 0; n < 13; n++) HOLDS(numbers[15 + n] == rest[n]);
    REFUSED(leg_read_settings(SETTINGS, numbers, LEG_SETTINGS - 1), LEG_TOO_SHORT);
    REFUSED(leg_read_settings(LEG_DEFAULTS, LEG_SETTINGS_BYTES - 1, numbers, LEG_SETTINGS), LEG_BAD_SETTINGS);
}

/* Settings with a margin and these five numbers: both alignments, line mode, both priorities. */
static uint8_t *record(const char *five) {
    static uint8_t bytes[] = "\x10\x00\x1C" "=_()hv123456789" "\x04\x05\x06\x07" "lrtb" "....." "\x11\x00\x08" "\x09\x0A\x0B\x0C" "LRTB";
    memcpy(bytes + 26, five, 5);
    return bytes;
}

/* Between two of the five numbers there is a difference in one of the two records. */
static void settings(void) {
    const uint8_t *bytes = record("\x02\x01\x00\x02\x01");
    COUNTS(leg_read_settings(bytes, LEG_SETTINGS_MARGIN_BYTES, numbers, LEG_SETTINGS), LEG_SETTINGS);
    REFUSED(leg_read_settings(bytes, LEG_SETTINGS_MARGIN_BYTES - 1, numbers, LEG_SETTINGS), LEG_BAD_SETTINGS);
    HOLDS(numbers[LEG_SETTINGS_MARKS] == '=' && numbers[LEG_SETTINGS_MARKS + 14] == '9');
    HOLDS(numbers[LEG_SETTINGS_PADDING] == 4 && numbers[LEG_SETTINGS_PADDING + 3] == 7);
    HOLDS(numbers[LEG_SETTINGS_FILLS] == 'l' && numbers[LEG_SETTINGS_FILLS + 3] == 'b');
    HOLDS(numbers[LEG_SETTINGS_HORIZONTAL] == 2 && numbers[LEG_SETTINGS_VERTICAL] == 1 && numbers[LEG_SETTINGS_LINE_MODE] == 0);
    HOLDS(numbers[LEG_SETTINGS_WIDTH_PRIORITY] == 2 && numbers[LEG_SETTINGS_HEIGHT_PRIORITY] == 1);
    bytes = record("\x01\x02\x01\x00\x00");
    COUNTS(leg_read_settings(bytes, LEG_SETTINGS_MARGIN_BYTES, numbers, LEG_SETTINGS), LEG_SETTINGS);
    HOLDS(numbers[LEG_SETTINGS_HORIZONTAL] == 1 && numbers[LEG_SETTINGS_VERTICAL] == 2 && numbers[LEG_SETTINGS_LINE_MODE] == 1);
    HOLDS(numbers[LEG_SETTINGS_WIDTH_PRIORITY] == 0 && numbers[LEG_SETTINGS_HEIGHT_PRIORITY] == 0);
    COUNTS(leg_read_margin(bytes, LEG_SETTINGS_MARGIN_BYTES, numbers, LEG_MARGIN), LEG_MARGIN);
    REFUSED(leg_read_margin(bytes, LEG_SETTINGS_MARGIN_BYTES, numbers, LEG_MARGIN - 1), LEG_TOO_SHORT);
    HOLDS(numbers[LEG_MARGIN_SIZES] == 9 && numbers[LEG_MARGIN_SIZES + 3] == 12);
    HOLDS(numbers[LEG_MARGIN_FILLS] == 'L' && numbers[LEG_MARGIN_FILLS + 3] == 'B');
    REFUSED(leg_place(bytes, LEG_SETTINGS_MARGIN_BYTES, IN(uneven()), 12, 8, numbers, LEG_PLACE), LEG_IN_MARGIN);
}

/* `aaaa` is 6 by 1 with its padding, the Row is 10 by 1; the second Row has as much width and gives its spare to the last. */
static void sizes(void) {
    struct list tree = uneven();
    COUNTS(leg_sizes(SETTINGS, IN(tree), numbers, 7 * LEG_SIZES), 7);
    REFUSED(leg_sizes(SETTINGS, IN(tree), numbers, 7 * LEG_SIZES - 1), LEG_TOO_SHORT);
    HOLDS(numbers[LEG_SIZES_NATURAL_WIDTH] == 10 && numbers[LEG_SIZES_NATURAL_HEIGHT] == 3 && numbers[LEG_SIZES_BELOW] == 6);
    HOLDS(numbers[6 * LEG_SIZES + LEG_SIZES_NATURAL_WIDTH] == 4 && numbers[6 * LEG_SIZES + LEG_SIZES_ALLOTTED_WIDTH] == 6);
    HOLDS(numbers[6 * LEG_SIZES + LEG_SIZES_NATURAL_HEIGHT] == 1 && numbers[6 * LEG_SIZES + LEG_SIZES_ALLOTTED_HEIGHT] == 1);
    HOLDS(numbers[4 * LEG_SIZES + LEG_SIZES_BELOW] == 2 && numbers[5 * LEG_SIZES + LEG_SIZES_BELOW] == 0);
}

/* A tall neighbour, so that the allotted height is not the natural one. */
static void allotted_height(void) {
    size_t start = mark(), row = begin(2);
    struct list tree;
    cell("a");
    cell("b\nc\nd");
    end(row);
    tree = taken(start);
    COUNTS(leg_sizes(SETTINGS, IN(tree), numbers, 3 * LEG_SIZES), 3);
    HOLDS(numbers[LEG_SIZES + LEG_SIZES_NATURAL_HEIGHT] == 1 && numbers[LEG_SIZES + LEG_SIZES_ALLOTTED_HEIGHT] == 3);
}

/* Column[Row[`a`, `b`, `c`], Row[`a`, `b`, `c`]]: no two flags are the same in all of its leaves. */
static struct list straight(void) {
    size_t start = mark(), all = begin(3), row, n;
    for (n = 0; n < 2; n++) {
        row = begin(2);
        cell("a");
        cell("b");
        cell("c");
        end(row);
    }
    end(all);
    return taken(start);
}

/* A leaf's flags, yes or no, by document 01, 'The walk'. */
static void flags(size_t node, const char *told) {
    static const int places[] = {
        LEG_RECORD_FIRST_ROW, LEG_RECORD_LAST_ROW, LEG_RECORD_FIRST_COL, LEG_RECORD_LAST_COL,
        LEG_RECORD_NO_RIGHT, LEG_RECORD_LEAN_TOP, LEG_RECORD_TOP_LEFT, LEG_RECORD_TOP_INTERSECTION,
    };
    size_t n;
    COUNTS(leg_leaf_record(SETTINGS, IN(straight()), node, numbers, LEG_RECORD), LEG_RECORD);
    for (n = 0; n < 8; n++) HOLDS(numbers[places[n]] == (told[n] == 'y'));
}

static void records(void) {
    flags(2, "ynynynnn");
    flags(3, "ynnnyynn");
    flags(4, "ynnynynn");
    flags(6, "nyynynyn");
    flags(7, "nynnyyny");
    flags(8, "nynynyny");
    REFUSED(leg_leaf_record(SETTINGS, IN(uneven()), 2, numbers, LEG_RECORD - 1), LEG_TOO_SHORT);
    COUNTS(leg_leaf_record(SETTINGS, IN(uneven()), 2, numbers, LEG_RECORD), LEG_RECORD);
    HOLDS(numbers[LEG_RECORD_NODE] == 2 && numbers[LEG_RECORD_WIDTH] == 6 && numbers[LEG_RECORD_HEIGHT] == 1);
    COUNTS(leg_leaf_record(SETTINGS, IN(uneven()), 5, numbers, LEG_RECORD), LEG_RECORD);
    HOLDS(numbers[LEG_RECORD_TAKEN] == 0 && numbers[LEG_RECORD_REST] == 2);
    COUNTS(leg_leaf_record(SETTINGS, IN(uneven()), 6, numbers, LEG_RECORD), LEG_RECORD);
    HOLDS(numbers[LEG_RECORD_TAKEN] == 1 && numbers[LEG_RECORD_REST] == 0);
    HOLDS(numbers[LEG_RECORD_HORIZONTAL] == 1 && numbers[LEG_RECORD_HORIZONTAL + 1] == 2);
    HOLDS(numbers[LEG_RECORD_VERTICAL] == 1 && numbers[LEG_RECORD_VERTICAL + 1] == 1);
    REFUSED(leg_print_leaf(SETTINGS, IN(uneven()), 1, out, LEG_SHEET), LEG_NO_LEAF);
}

static void places(void) {
    static uint64_t asked[LEG_PLACES + 1], answers[LEG_PLACES + 1];
    uint64_t elements = 0;
    size_t n;
    COUNTS(leg_place(SETTINGS, IN(uneven()), 3, 6, numbers, LEG_PLACE), LEG_PLACE);
    REFUSED(leg_place(SETTINGS, IN(uneven()), 3, 6, numbers, LEG_PLACE - 1), LEG_TOO_SHORT);
    HOLDS(numbers[LEG_PLACE_NODE] == 6 && numbers[LEG_PLACE_LINE] == 1 && numbers[LEG_PLACE_COLUMN] == 2);
    REFUSED(leg_place(SETTINGS, IN(uneven()), 5, 0, numbers, LEG_PLACE), LEG_OUTSIDE_SHEET);
    for (n = 0; n <= LEG_PLACES; n++) asked[n] = LEG_AT(3, 6);
    COUNTS(leg_places(SETTINGS, IN(uneven()), asked, LEG_PLACES, answers, LEG_PLACES, &elements), LEG_PLACES);
    REFUSED(leg_places(SETTINGS, IN(uneven()), asked, LEG_PLACES + 1, answers, LEG_PLACES + 1, &elements), LEG_TOO_MANY_PLACES);
    HOLDS(elements == 7 && LEG_NODE(answers[LEG_PLACES - 1]) == 6 && LEG_LINE(answers[0]) == 1 && LEG_COLUMN(answers[0]) == 2);
    asked[0] = LEG_AT(UINT64_C(1) << 32 | 3, 6);
    REFUSED(leg_places(SETTINGS, IN(uneven()), asked, 1, answers, 1, &elements), LEG_OUTSIDE_SHEET);
}

static void folds_and_plans(void) {
    static uint16_t columns[LEG_CELLS];
    uint64_t found[LEG_FOUND];
    uint32_t ends[LEG_ENDS];
    size_t start = mark(), all = begin(3), at;
    struct list plan;
    cell("abcd");
    at = begin(4);
    put("\x02\x06\x01\x03");
    end(at);
    end(all);
    plan = taken(start);
    COUNTS(leg_fold(SETTINGS, IN(cells(3, LEG_CELLS)), 2, 0, columns, LEG_CELLS, found), 1);
    COUNTS(leg_fold(SETTINGS, IN(cells(3, 4)), 5, SIZE_MAX, columns, LEG_CELLS, found), 2);
    HOLDS(found[LEG_FOUND_HEIGHT] == 3 && found[LEG_FOUND_TRIES] == 6 && found[LEG_FOUND_MISS] == 0);
    COUNTS(leg_fold(SETTINGS, IN(cells(3, 4)), 5, 1, columns, LEG_CELLS, found), 2);
    HOLDS(found[LEG_FOUND_HEIGHT] == 6 && found[LEG_FOUND_TRIES] == 1 && found[LEG_FOUND_MISS] == 5);
    REFUSED(leg_fold(SETTINGS, IN(cells(3, LEG_CELLS + 1)), 2, 0, columns, LEG_CELLS, found), LEG_NOT_A_LIST);
    REFUSED(leg_fold(SETTINGS, IN(cells(3, 1)), 1, 0, columns, LEG_CELLS, found), LEG_TOO_WIDE);
    COUNTS(leg_plan(SETTINGS, IN(plan), ends), LEG_ENDS);
    HOLDS(ends[LEG_ENDS_LEAST_WIDTH] == 8 && ends[LEG_ENDS_GREATEST_WIDTH] == 10);
    HOLDS(ends[LEG_ENDS_LEAST_HEIGHT] == 5 && ends[LEG_ENDS_GREATEST_HEIGHT] == 7);
    ((uint8_t *)plan.items)[plan.length - 2] = 4;
    REFUSED(leg_plan(SETTINGS, IN(plan), ends), LEG_BAD_RANGE);
}

static void drafts(void) {
    struct list tree = text_of('a', LEG_TREE - 3);
    uint8_t name;
    for (name = 'A'; name <= 'H'; name++) COUNTS(leg_save_draft(store, LEG_STORE, name, IN(tree)), 0);
    COUNTS(leg_return_draft(store, LEG_STORE, 'H', other, LEG_TREE), LEG_TREE);
    COUNTS(leg_forget_draft(store, LEG_STORE, 'A'), 0);
    REFUSED(leg_save_draft(store, LEG_STORE - 1, 'A', IN(tree)), LEG_NO_ROOM);
    REFUSED(leg_forget_draft(store, LEG_STORE, 'A'), LEG_NO_DRAFT);
    store[0] = 0x28;
    REFUSED(leg_forget_draft(store, LEG_STORE, 'A'), LEG_BAD_STORE);
}

static void cuts(void) {
    static uint16_t pieces[LEG_PIECES + 1] = {4, 2, 7};
    COUNTS(leg_short_splits3(pieces, 3, 3, 8, numbers, LEG_CUT), LEG_CUT);
    REFUSED(leg_short_splits3(pieces, 3, 3, 8, numbers, LEG_CUT - 1), LEG_TOO_SHORT);
    HOLDS(numbers[LEG_CUT_YES] == 0 && numbers[LEG_CUT_TAKEN] == 2 && numbers[LEG_CUT_REST] == 6);
    HOLDS(numbers[LEG_CUT_TAKEN_LIST] == 2 && numbers[LEG_CUT_TAKEN_LIST + 1] == 4);
    HOLDS(numbers[LEG_CUT_LEFT_LIST] == 1 && numbers[LEG_CUT_LEFT_LIST + 1] == 6);
    COUNTS(leg_short_splits3(pieces, 3, 3, 15, numbers, LEG_CUT), LEG_CUT);
    HOLDS(numbers[LEG_CUT_YES] == 1 && numbers[LEG_CUT_TAKEN] == 2 && numbers[LEG_CUT_REST] == 0);
    COUNTS(leg_short_splits(pieces, 3, 3, 8, wide, LEG_LIST, more, LEG_LIST), LEG_LIST);
    REFUSED(leg_short_splits(pieces, 3, 3, 8, wide, LEG_LIST - 1, more, LEG_LIST), LEG_TOO_SHORT);
    COUNTS(leg_short_splits3_lent(pieces, 3, 3, 8, numbers, LEG_LENT_CUT), LEG_LENT_CUT);
    HOLDS(numbers[LEG_LENT_CUT_YES] == 0 && numbers[LEG_LENT_CUT_TAKEN] == 2 && numbers[LEG_LENT_CUT_REST] == 6);
    HOLDS(numbers[LEG_LENT_CUT_LEFT] == 1 && numbers[LEG_LENT_CUT_TAKEN_LIST] == 2 && pieces[0] == 6);
    REFUSED(leg_short_splits3_lent(pieces, 1, 1, 8, numbers, LEG_LENT_CUT - 1), LEG_TOO_SHORT);
    COUNTS(leg_short_splits3(pieces, LEG_PIECES, LEG_PIECES, 8, numbers, LEG_CUT), LEG_CUT);
    REFUSED(leg_short_splits3(pieces, LEG_PIECES + 1, LEG_PIECES + 1, 8, numbers, LEG_CUT), LEG_TOO_MANY_PIECES);
    REFUSED(leg_share(5, 2, 2, 2, &(uint64_t){0}), LEG_NO_CHILD);
    REFUSED(leg_read_tree(IN(text_of('\t', 1))), LEG_BAD_TEXT);
}

/* A typed list that begins with this and goes on with this many bytes: accepted where line and column are 0. */
static void typed(const char *list, char byte, size_t count, enum leg_refusal refusal, uint32_t line, uint32_t column) {
    size_t start = mark();
    uint64_t word;
    put(list);
    fill(byte, count);
    word = leg_read_typed(IN(taken(start)), other, LEG_TREE);
    HOLDS(LEG_NUMBER(word) == refusal && LEG_FAULT_LINE(word) == line && LEG_FAULT_COLUMN(word) == column);
}

static void lists(void) {
    size_t start, n;
    typed("a\n", '\n', LEG_TYPED - 2, LEG_ACCEPTED, 0, 0);
    typed("a\n", '\n', LEG_TYPED - 1, LEG_LIST_TOO_LONG, 0, 0);
    typed("row\n  a", '\t', 1, LEG_BAD_CHARACTER, 2, 4);
    typed("row\n  a\\", 't', 1, LEG_BAD_ESCAPE, 2, 5);
    typed("row\n   ", 'a', 1, LEG_ODD_INDENT, 2, 4);
    typed("row\n\n", 'a', 1, LEG_SECOND_ROOT, 3, 1);
    typed("row\n    ", 'a', 1, LEG_NO_PARENT, 2, 5);
    typed("", '#', 9, LEG_LIST_EMPTY, 1, 1);
    typed("", 'x', LEG_TREE - 2, LEG_LIST_TOO_LARGE, 1, 1);
    start = mark();
    for (n = 0; n < LEG_DEPTH; n++) {
        put("row\n");
        fill(' ', 2 * (n + 1));
    }
    fill(0, 1);
    typed((const char *)taken(start).items, 'a', 1, LEG_LIST_TOO_DEEP, LEG_DEPTH + 1, 2 * LEG_DEPTH + 1);
    start = mark();
    put("row\n");
    for (n = 1; n < LEG_NODES; n++) put("  '\n");
    put("  ");
    fill(0, 1);
    typed((const char *)taken(start).items, 'a', 1, LEG_LIST_TOO_MANY, LEG_NODES + 1, 3);
}

/* Each sentence is that of its number, and each number is its name's. */
static void sentences(void) {
#define SENTENCE(number, name, sentence) HOLDS(name == number && strcmp(leg_sentence(number), sentence) == 0);
    LEG_REFUSALS(SENTENCE)
    HOLDS(strcmp(leg_sentence(0), "accepted") == 0);
    HOLDS(strcmp(leg_sentence(7), leg_sentence(255)) == 0 && strcmp(leg_sentence(7), "accepted") != 0);
}

int main(void) {
    words();
    limits();
    defaults();
    settings();
    sizes();
    allotted_height();
    records();
    places();
    folds_and_plans();
    drafts();
    cuts();
    lists();
    sentences();
    printf("%zu passed, %zu failed\n", passed, failed);
    return failed == 0 ? 0 : 1;
}
