#include "calls.h"

#define IN(list) list.items, list.length

static uint64_t read_settings(const struct list *l, const size_t *n) {
    (void)n;
    return leg_read_settings(IN(l[0]), IN(l[1]));
}

static uint64_t read_margin(const struct list *l, const size_t *n) {
    (void)n;
    return leg_read_margin(IN(l[0]), IN(l[1]));
}

static uint64_t read_tree(const struct list *l, const size_t *n) {
    (void)n;
    return leg_read_tree(IN(l[0]));
}

static uint64_t sizes(const struct list *l, const size_t *n) {
    (void)n;
    return leg_sizes(IN(l[0]), IN(l[1]), IN(l[2]));
}

static uint64_t leaf_record(const struct list *l, const size_t *n) {
    return leg_leaf_record(IN(l[0]), IN(l[1]), n[0], IN(l[2]));
}

static uint64_t print_leaf(const struct list *l, const size_t *n) {
    return leg_print_leaf(IN(l[0]), IN(l[1]), n[0], IN(l[2]));
}

static uint64_t print_sheet(const struct list *l, const size_t *n) {
    (void)n;
    return leg_print_sheet(IN(l[0]), IN(l[1]), IN(l[2]));
}

static uint64_t place(const struct list *l, const size_t *n) {
    return leg_place(IN(l[0]), IN(l[1]), n[0], n[1], IN(l[2]));
}

static uint64_t places(const struct list *l, const size_t *n) {
    (void)n;
    return leg_places(IN(l[0]), IN(l[1]), IN(l[2]), IN(l[3]), l[4].items);
}

static uint64_t fold(const struct list *l, const size_t *n) {
    return leg_fold(IN(l[0]), IN(l[1]), n[0], n[1], IN(l[2]), l[3].items);
}

static uint64_t plan(const struct list *l, const size_t *n) {
    (void)n;
    return leg_plan(IN(l[0]), IN(l[1]), l[2].items);
}

static uint64_t widen(const struct list *l, const size_t *n) {
    (void)n;
    return leg_widen(IN(l[0]), IN(l[1]), IN(l[2]), IN(l[3]));
}

static uint64_t save_draft(const struct list *l, const size_t *n) {
    return leg_save_draft(IN(l[0]), (uint8_t)n[0], IN(l[1]));
}

static uint64_t forget_draft(const struct list *l, const size_t *n) {
    return leg_forget_draft(IN(l[0]), (uint8_t)n[0]);
}

static uint64_t return_draft(const struct list *l, const size_t *n) {
    return leg_return_draft(IN(l[0]), (uint8_t)n[0], IN(l[1]));
}

static uint64_t blank(const struct list *l, const size_t *n) {
    (void)n;
    return leg_blank(IN(l[0]), IN(l[1]), IN(l[2]));
}

static uint64_t read_typed(const struct list *l, const size_t *n) {
    (void)n;
    return leg_read_typed(IN(l[0]), IN(l[1]));
}

static uint64_t short_splits3(const struct list *l, const size_t *n) {
    return leg_short_splits3(IN(l[0]), n[0], (uint16_t)n[1], IN(l[1]));
}

static uint64_t short_splits3_lent(const struct list *l, const size_t *n) {
    return leg_short_splits3_lent(IN(l[0]), n[0], (uint16_t)n[1], IN(l[1]));
}

static uint64_t short_splits(const struct list *l, const size_t *n) {
    return leg_short_splits(IN(l[0]), n[0], (uint16_t)n[1], IN(l[1]), IN(l[2]));
}

static uint64_t share(const struct list *l, const size_t *n) {
    return leg_share(n[0], n[1], (uint8_t)n[2], n[3], l[0].items);
}

#define BYTES {1, READ, 0, 0, 0}
#define STORE {1, CHANGED, 0, 0, 0}
#define OUT(type, fixed, each) {sizeof(type), WRITTEN, fixed, each, 0}
#define BOUND(type, fixed) {sizeof(type), WRITTEN, fixed, 0, 1}

const struct call CALLS[] = {
    {"leg_read_settings", {BYTES, OUT(uint16_t, LEG_SETTINGS, 0)}, 2, read_settings},
    {"leg_read_margin", {BYTES, OUT(uint16_t, LEG_MARGIN, 0)}, 2, read_margin},
    {"leg_read_tree", {BYTES}, 1, read_tree},
    {"leg_sizes", {BYTES, BYTES, OUT(uint16_t, 0, LEG_SIZES)}, 3, sizes},
    {"leg_leaf_record", {BYTES, BYTES, OUT(uint16_t, LEG_RECORD, 0)}, 3, leaf_record},
    {"leg_print_leaf", {BYTES, BYTES, OUT(uint8_t, 0, 1)}, 3, print_leaf},
    {"leg_print_sheet", {BYTES, BYTES, OUT(uint8_t, 0, 1)}, 3, print_sheet},
    {"leg_place", {BYTES, BYTES, OUT(uint16_t, LEG_PLACE, 0)}, 3, place},
    {"leg_places", {BYTES, BYTES, {sizeof(uint64_t), READ, 0, 0, 0}, OUT(uint64_t, 0, 1), BOUND(uint64_t, 1)}, 5, places},
    {"leg_fold", {BYTES, BYTES, OUT(uint16_t, 0, 1), BOUND(uint64_t, LEG_FOUND)}, 4, fold},
    {"leg_plan", {BYTES, BYTES, BOUND(uint32_t, LEG_ENDS)}, 3, plan},
    {"leg_widen", {BYTES, BYTES, OUT(uint16_t, 0, 1), OUT(uint32_t, 0, 1)}, 4, widen},
    {"leg_save_draft", {STORE, BYTES}, 2, save_draft},
    {"leg_forget_draft", {STORE}, 1, forget_draft},
    {"leg_return_draft", {BYTES, OUT(uint8_t, 0, 1)}, 2, return_draft},
    {"leg_blank", {BYTES, {sizeof(uint16_t), READ, 0, 0, 0}, OUT(uint8_t, 0, 1)}, 3, blank},
    {"leg_read_typed", {BYTES, OUT(uint8_t, 0, 1)}, 2, read_typed},
    {"leg_short_splits3", {{sizeof(uint16_t), READ, 0, 0, 0}, OUT(uint16_t, LEG_CUT, 0)}, 2, short_splits3},
    {"leg_short_splits3_lent", {{sizeof(uint16_t), CHANGED, 0, 0, 0}, OUT(uint16_t, LEG_LENT_CUT, 0)}, 2, short_splits3_lent},
    {"leg_short_splits", {{sizeof(uint16_t), READ, 0, 0, 0}, OUT(uint32_t, LEG_LIST, 0), OUT(uint16_t, LEG_LIST, 0)}, 3, short_splits},
    {"leg_share", {BOUND(uint64_t, 1)}, 1, share},
};

const size_t CALLS_COUNT = sizeof CALLS / sizeof *CALLS;
