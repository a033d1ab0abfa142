// Calls of each C function on fixed inputs. A file that includes this one says before what a call does: CALL(function, arguments), which leaves the answer in `word`,
// and CHANGE(memory, bytes, function, arguments) for a call that changes these bytes, which it reads.
#include <stdio.h>
#include <string.h>

#include "leg_sheet.h"

enum { CELL = 1, ROW = 2, COLUMN = 3, RANGE = 4 };

static const uint8_t lined[] = {"\x10\x00\x1C" "--||-|+++++++++" "\x00\x00\x00\x00" "    " "\x00\x00\x00\x02\x02"};
static const uint8_t bare[] = {"\x10\x00\x1C" "\0\0\0\0\0\0\0\0\0\0\0\0\0\0\0" "\x00\x00\x00\x00" "    " "\x00\x00\x00\x02\x02"};
static const uint8_t edged[] = {"\x10\x00\x1C" "--||-|+++++++++" "\x01\x01\x00\x00" "<>  " "\x01\x01\x01\x01\x02" "\x11\x00\x08" "\x02\x02\x01\x01" "    "};

static const uint8_t *settings = lined;
static size_t settings_len = LEG_SETTINGS_BYTES;
static const char *input;
static uint8_t tree[LEG_TREE], typed[LEG_TYPED], out[LEG_SHEET], store[LEG_STORE];
static size_t tree_len, typed_len, level, nodes;
static uint16_t numbers[LEG_SIZES * LEG_NODES], record[LEG_RECORD], cut[LEG_CUT];
static uint32_t letters[LEG_NODES], positions[LEG_LIST], ends[LEG_ENDS];
static uint64_t places[LEG_PLACES], answers[LEG_PLACES], found[LEG_FOUND], read_elements, part;
static uint64_t word;

#define INPUT settings, settings_len, tree, tree_len

// ---- trees, as bytes and as typed lists

static void type(const char *text, size_t n) {
    for (size_t i = 0; i < 2 * level; i++)
        typed[typed_len++] = ' ';
    for (size_t i = 0; i < n; i++) {
        if (text[i] == '\n') {
            typed[typed_len++] = '\\';
            typed[typed_len++] = 'n';
        } else {
            typed[typed_len++] = (uint8_t)text[i];
        }
    }
    typed[typed_len++] = '\n';
}

static size_t open(uint8_t tag) {
    size_t at = tree_len;
    tree[at] = tag;
    tree_len += 3;
    nodes++;
    return at;
}

static void close(size_t at) {
    tree[at + 1] = (uint8_t)((tree_len - at - 3) / 256);
    tree[at + 2] = (uint8_t)((tree_len - at - 3) % 256);
}

static size_t open_group(uint8_t tag) {
    type(tag == ROW ? "row" : "column", tag == ROW ? 3 : 6);
    level++;
    return open(tag);
}

static void close_group(size_t at) {
    level--;
    close(at);
}

static void put(uint8_t tag, const char *bytes, size_t n) {
    size_t at = open(tag);
    type(bytes, n);
    for (size_t i = 0; i < n; i++)
        tree[tree_len++] = (uint8_t)bytes[i];
    close(at);
}

// A short text, one of four.
static void put_short(size_t i) {
    static const char *texts[] = {"a", "bc", "d\nef", ""};
    put(CELL, texts[i % 4], strlen(texts[i % 4]));
}

// Lines of this many letters.
static void put_text(size_t width, size_t lines) {
    static char text[LEG_TREE];
    size_t n = 0;
    for (size_t i = 0; i < lines; i++) {
        if (i > 0)
            text[n++] = '\n';
        for (size_t k = 0; k < width; k++)
            text[n++] = 'x';
    }
    put(CELL, text, n);
}

static void flat(uint8_t tag, size_t cells, size_t width, size_t lines) {
    size_t at = open_group(tag);
    for (size_t i = 0; i < cells; i++) {
        if (lines == 0)
            put_short(i);
        else
            put_text(width, lines);
    }
    close_group(at);
}

// Rows of Cells of this many letters and lines, or of short ones.
static void grid(size_t rows, size_t columns, size_t width, size_t lines) {
    size_t at = open_group(COLUMN);
    for (size_t i = 0; i < rows; i++)
        flat(ROW, columns, width, lines);
    close_group(at);
}

// This many children in Rows and Columns alternately.
static void nested(size_t children, size_t depth, uint8_t tag) {
    size_t at = open_group(tag);
    for (size_t i = 0; i < children; i++) {
        if (depth == 1)
            put_short(i);
        else
            nested(children, depth - 1, tag == ROW ? COLUMN : ROW);
    }
    close_group(at);
}

// A chain of groups, each with a Cell before the next.
static void deep(size_t depth, uint8_t tag) {
    size_t at = open_group(tag);
    put_short(depth);
    if (depth > 2)
        deep(depth - 1, tag == ROW ? COLUMN : ROW);
    close_group(at);
}

static void ranges(size_t rows, size_t columns) {
    size_t at = open_group(COLUMN);
    for (size_t i = 0; i < rows; i++) {
        size_t row = open_group(ROW);
        for (size_t k = 0; k < columns; k++)
            put(RANGE, "\x02\x06\x01\x03", 4);
        close_group(row);
    }
    close_group(at);
}

// ---- the calls

// Places all over the sheet that was printed last, or all the same where none was.
static void choose_places(uint64_t bytes) {
    size_t width = 0;
    while (width < bytes && out[width] != '\n')
        width++;
    size_t height = bytes == 0 ? 1 : (bytes + 1) / (width + 1);
    for (size_t i = 0; i < LEG_PLACES; i++)
        places[i] = LEG_AT(7 * i % height, width == 0 ? 0 : 13 * i % width);
}

// Three drafts of the tree in a store that no other fits: one saved again, one returned to, one forgotten.
static void calls_on_store(void) {
    size_t room = 3 * (3 + tree_len) + 10;
    memset(store, 0, sizeof store);
    for (uint8_t name = 'A'; name <= 'C'; name++)
        CHANGE(store, room, leg_save_draft, store, room, name, tree, tree_len);
    CHANGE(store, room, leg_save_draft, store, room, 'A', tree, tree_len);
    CALL(leg_return_draft, store, room, 'C', out, sizeof out);
    CHANGE(store, room, leg_forget_draft, store, room, 'C');
}

static void calls_on_tree(void) {
    size_t leaf = nodes - 1;
    CALL(leg_read_tree, tree, tree_len);
    CALL(leg_sizes, INPUT, numbers, LEG_SIZES * LEG_NODES);
    CALL(leg_leaf_record, INPUT, leaf, record, LEG_RECORD);
    CALL(leg_print_leaf, INPUT, leaf, out, sizeof out);
    CALL(leg_print_sheet, INPUT, out, sizeof out);
    choose_places(LEG_COUNT(word));
    CALL(leg_place, INPUT, 3, 3, record, LEG_PLACE);
    CALL(leg_places, INPUT, places, LEG_PLACES, answers, LEG_PLACES, &read_elements);
    CALL(leg_fold, INPUT, 120, 100, numbers, LEG_CELLS, found);
    CALL(leg_plan, INPUT, ends);
    CALL(leg_widen, INPUT, numbers, LEG_NODES, letters, LEG_NODES);
    CALL(leg_blank, tree, tree_len, numbers, 0, out, sizeof out);
    CALL(leg_read_typed, typed, typed_len, out, sizeof out);
    calls_on_store();
}

static void begin(const char *name) {
    input = name;
    tree_len = typed_len = level = nodes = 0;
}

#define TREE(name, build) (begin(name), build, calls_on_tree())

static void calls_on_settings(const char *name, const uint8_t *bytes, size_t bytes_len) {
    input = name;
    CALL(leg_read_settings, bytes, bytes_len, numbers, LEG_SETTINGS);
    CALL(leg_read_margin, bytes, bytes_len, numbers, LEG_MARGIN);
}

// This many pieces, cut at a width.
static void calls_on_pieces(size_t count, uint16_t width) {
    static uint16_t pieces[LEG_PIECES], left[LEG_LIST];
    static char name[32];
    snprintf(name, sizeof name, "%zu-at-%u", count, width);
    input = name;
    for (size_t i = 0; i < LEG_PIECES; i++)
        pieces[i] = (uint16_t)(1 + i % 5);
    CALL(leg_short_splits3, pieces, LEG_PIECES, count, width, cut, LEG_CUT);
    CALL(leg_short_splits, pieces, LEG_PIECES, count, width, positions, LEG_LIST, left, LEG_LIST);
    CHANGE(pieces, sizeof pieces, leg_short_splits3_lent, pieces, LEG_PIECES, count, width, cut, LEG_LENT_CUT);
}

static void calls_on_shares(uint8_t priority) {
    static char name[32];
    for (size_t index = 0; index < 8; index += 3) {
        snprintf(name, sizeof name, "%zu-of-7-by-%u", index, priority);
        input = name;
        CALL(leg_share, 100, 7, priority, index, &part);
    }
}

static void calls_without_tree(void) {
    calls_on_settings("lined", lined, LEG_SETTINGS_BYTES);
    calls_on_settings("bare", bare, LEG_SETTINGS_BYTES);
    calls_on_settings("edged", edged, LEG_SETTINGS_MARGIN_BYTES);
    calls_on_settings("cut-short", edged, LEG_SETTINGS_MARGIN_BYTES - 1);
    for (size_t count = 0; count <= LEG_PIECES; count = 8 * count + (count == 0))
        for (uint16_t width = 1; width < 2000; width *= 40)
            calls_on_pieces(count, width);
    for (uint8_t priority = 0; priority < 3; priority++)
        calls_on_shares(priority);
}

static void all_calls(void) {
    calls_without_tree();
    TREE("cell", put_short(0));
    TREE("row-10", flat(ROW, 10, 1, 1));
    TREE("row-199", flat(ROW, 199, 1, 1));
    TREE("column-79", flat(COLUMN, 79, 1, 1));
    TREE("grid-16-30", grid(16, 30, 0, 0));
    TREE("nested-2-8", nested(2, 8, ROW));
    TREE("deep-16", deep(16, ROW));
    TREE("text-396-80", put_text(396, 80));
    TREE("text-100-1", put_text(100, 1));
    TREE("texts-10-10", grid(10, 10, 36, 8));
    TREE("texts-20-24", grid(20, 24, 13, 4));
    TREE("too-large", grid(1, 300, 0, 0));
    settings = bare;
    TREE("bare-10-10", grid(10, 10, 0, 0));
    settings = edged;
    settings_len = LEG_SETTINGS_MARGIN_BYTES;
    TREE("edged-10-10", grid(10, 10, 0, 0));
    TREE("edged-100-40", put_text(100, 40));
    begin("ranges-10-10");
    ranges(10, 10);
    CALL(leg_plan, INPUT, ends);
}
