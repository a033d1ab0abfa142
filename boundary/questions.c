#include <string.h>

#include "build.h"
#include "calls.h"

static struct list settings[3], trees[8], plans[2], typed[4], stores[4];
static size_t trees_count, plans_count, typed_count, stores_count;

static struct question asked[4096];
static size_t asked_count;

/* A text that is to come. */
static void range(uint8_t least, uint8_t greatest, uint8_t lines, uint8_t more) {
    size_t at = begin(4);
    fill((char)least, 1);
    fill((char)greatest, 1);
    fill((char)lines, 1);
    fill((char)more, 1);
    end(at);
}

/* Groups in each other down to the greatest depth, a text before and behind each inner one. */
static void nested(size_t depth) {
    size_t at;
    if (depth == 1) {
        cell("in\nhere");
        return;
    }
    at = begin(depth % 2 ? 2 : 3);
    cell("a");
    nested(depth - 1);
    cell("bc");
    end(at);
}

/* This many Rows of this many empty Cells in a Column. */
static void grid(size_t rows, size_t cells) {
    size_t all = begin(3), row, n, at;
    for (row = 0; row < rows; row++) {
        at = begin(2);
        for (n = 0; n < cells; n++) cell("");
        end(at);
    }
    end(all);
}

static void build_trees(void) {
    size_t at, n, start = mark();
    at = begin(3);
    cell("abcdef");
    n = begin(2);
    cell("a");
    cell("b");
    end(n);
    end(at);
    trees[trees_count++] = taken(start);

    start = mark();
    nested(LEG_DEPTH);
    trees[trees_count++] = taken(start);

    start = mark(); /* no tree */
    cell("\x7F");
    trees[trees_count++] = taken(start);
}

static void build_greatest_trees(void) {
    size_t at, n, start = mark();
    grid(7, 72); /* LEG_NODES nodes */
    trees[trees_count++] = taken(start);

    start = mark(); /* the largest sheet: a line as long as it may be, and as many lines */
    at = begin(1);
    fill('x', LEG_WIDTH - 4);
    fill('\n', LEG_HEIGHT - 3);
    end(at);
    trees[trees_count++] = taken(start);

    start = mark(); /* a list to fold, as long as it may be */
    at = begin(3);
    for (n = 0; n < LEG_CELLS; n++) cell(n % 3 ? "leg" : "two\nlines");
    end(at);
    trees[trees_count++] = taken(start);

    start = mark(); /* as many bytes as a tree may have */
    at = begin(1);
    fill('y', LEG_TREE - 3);
    end(at);
    trees[trees_count++] = taken(start);
}

static void build_plans(void) {
    size_t at, n, start = mark();
    at = begin(3);
    cell("abcd");
    range(2, 6, 1, 3);
    end(at);
    plans[plans_count++] = taken(start);

    start = mark();
    at = begin(2);
    for (n = 1; n < LEG_NODES; n++) range(0, 255, 1, 255);
    end(at);
    plans[plans_count++] = taken(start);
}

static void build_typed(void) {
    size_t start = mark(), depth;
    put("column\n  leg 1\n  row\n    Home pad\n    '# 4\\\\\n");
    typed[typed_count++] = taken(start);

    start = mark();
    for (depth = 1; depth < LEG_DEPTH; depth++) {
        put(depth % 2 ? "row\n" : "column\n");
        fill(' ', 2 * depth);
    }
    put("deep");
    typed[typed_count++] = taken(start);

    start = mark(); /* as long as it may be: most of it is a comment */
    put("row\n  a\n#");
    fill('-', LEG_TYPED - taken(start).length);
    typed[typed_count++] = taken(start);

    start = mark();
    put("row\n   odd\n");
    typed[typed_count++] = taken(start);
}

static void build_stores(void) {
    size_t start = mark(), n;
    fill(0, 64);
    stores[stores_count++] = taken(start);

    start = mark(); /* two drafts, and no byte is free */
    n = begin(0x20);
    cell("first");
    end(n);
    n = begin(0x27);
    cell("last");
    end(n);
    stores[stores_count++] = taken(start);

    start = mark(); /* no store */
    put("0");
    stores[stores_count++] = taken(start);
}

static void build_settings(void) {
    static uint8_t margin[LEG_SETTINGS_MARGIN_BYTES], bare[LEG_SETTINGS_BYTES], plain[LEG_SETTINGS_BYTES];
    memcpy(plain, LEG_DEFAULTS, LEG_SETTINGS_BYTES);
    memcpy(bare, LEG_DEFAULTS, LEG_SETTINGS_BYTES);
    memset(bare + 3, 0, 15);
    memcpy(margin, LEG_DEFAULTS, LEG_SETTINGS_BYTES);
    memcpy(margin + LEG_SETTINGS_BYTES, "\x11\x00\x08\x02\x01\x01\x03lrtb", 11);
    settings[0].items = plain;
    settings[1].items = bare;
    settings[2].items = margin;
    settings[0].length = settings[1].length = LEG_SETTINGS_BYTES;
    settings[2].length = LEG_SETTINGS_MARGIN_BYTES;
}

static struct question *ask(const char *name) {
    struct question *question = asked + asked_count++;
    size_t n;
    for (n = 0; n < CALLS_COUNT; n++) {
        if (strcmp(CALLS[n].name, name) == 0) question->call = CALLS + n;
    }
    return question;
}

/* A question about settings and a tree, with two numbers. */
static struct question *ask_tree(const char *name, struct list record, struct list tree, size_t one, size_t other) {
    struct question *question = ask(name);
    question->given[0] = record;
    question->given[1] = tree;
    question->numbers[0] = one;
    question->numbers[1] = other;
    return question;
}

static void ask_of_tree(struct list record, struct list tree) {
    static const uint64_t marked[] = {LEG_AT(1, 2), LEG_AT(0, 0), LEG_AT(1, 2)};
    static const size_t nodes[] = {0, 1, 3, LEG_NODES - 1};
    struct question *question;
    size_t n;
    ask_tree("leg_sizes", record, tree, 0, 0);
    ask_tree("leg_print_sheet", record, tree, 0, 0);
    ask_tree("leg_fold", record, tree, 60, 100);
    ask_tree("leg_fold", record, tree, 20, 0);
    ask_tree("leg_widen", record, tree, 0, 0);
    ask_tree("leg_plan", record, tree, 0, 0);
    ask_tree("leg_place", record, tree, 2, 3);
    for (n = 0; n < sizeof nodes / sizeof *nodes; n++) {
        ask_tree("leg_leaf_record", record, tree, nodes[n], 0);
        ask_tree("leg_print_leaf", record, tree, nodes[n], 0);
    }
    question = ask_tree("leg_places", record, tree, 0, 0);
    question->given[2].items = (void *)(uintptr_t)marked;
    question->given[2].length = 3;
}

static void ask_of_bytes(void) {
    static const uint16_t blanked[] = {4, 1, 4};
    struct question *question;
    size_t n, m;
    for (n = 0; n < 3; n++) {
        ask("leg_read_settings")->given[0] = settings[n];
        ask("leg_read_margin")->given[0] = settings[n];
        for (m = 0; m < plans_count; m++) ask_tree("leg_plan", settings[n], plans[m], 0, 0);
        for (m = 0; m < trees_count; m++) ask_of_tree(settings[n], trees[m]);
    }
    for (n = 0; n < trees_count; n++) {
        ask("leg_read_tree")->given[0] = trees[n];
        for (m = 0; m <= 3; m += 3) {
            question = ask("leg_blank");
            question->given[0] = trees[n];
            question->given[1].items = (void *)(uintptr_t)blanked;
            question->given[1].length = m;
        }
    }
    for (n = 0; n < typed_count; n++) ask("leg_read_typed")->given[0] = typed[n];
}

static void ask_of_stores(void) {
    static const uint8_t names[] = {'A', 'B', 'H', 'I'};
    struct question *question;
    size_t n, m;
    for (n = 0; n < stores_count; n++) {
        for (m = 0; m < sizeof names; m++) {
            question = ask_tree("leg_save_draft", stores[n], trees[0], names[m], 0);
            question = ask("leg_forget_draft");
            question->given[0] = stores[n];
            question->numbers[0] = names[m];
            question = ask("leg_return_draft");
            question->given[0] = stores[n];
            question->numbers[0] = names[m];
        }
    }
}

static void ask_of_numbers(void) {
    static const char *const cuts[] = {"leg_short_splits3", "leg_short_splits3_lent", "leg_short_splits"};
    static const size_t counts[] = {0, 3, LEG_PIECES}, widths[] = {0, 4, 9, 65535};
    static uint16_t pieces[LEG_PIECES];
    struct question *question;
    size_t cut, n, m;
    for (n = 0; n < LEG_PIECES; n++) pieces[n] = (uint16_t)(1 + n % 5);
    for (cut = 0; cut < 3; cut++) {
        for (n = 0; n < 3; n++) {
            for (m = 0; m < 4; m++) {
                question = ask(cuts[cut]);
                question->given[0].items = pieces;
                question->given[0].length = question->numbers[0] = counts[n];
                question->numbers[1] = widths[m];
            }
        }
    }
    for (n = 0; n < 5; n++) {
        const size_t numbers[NUMBERS] = {17, 4, n % 3, n};
        memcpy(ask("leg_share")->numbers, numbers, sizeof numbers);
    }
}

const struct question *questions(size_t *count) {
    if (asked_count == 0) {
        build_settings();
        build_trees();
        build_greatest_trees();
        build_plans();
        build_typed();
        build_stores();
        ask_of_bytes();
        ask_of_stores();
        ask_of_numbers();
    }
    *count = asked_count;
    return asked;
}
