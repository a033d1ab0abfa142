/* A typed list printed as a sheet, the leaf of a place of it, and a list with a fault. With the installed library:
 *
 *     cc start.c $(pkg-config --cflags --libs leg_sheet) -o start && ./start
 *
 * start.rs and start.py do the same.
 */
#include <leg_sheet.h>
#include <stdio.h>
#include <string.h>

static uint8_t tree[LEG_TREE], sheet[LEG_SHEET];

/* The bytes of the list's tree; or none, and what is wrong with the list is printed. */
static size_t read_list(const char *list) {
    uint64_t word = leg_read_typed((const uint8_t *)list, strlen(list), tree, sizeof tree);
    if (LEG_NUMBER(word) != 0) printf("line %zu, column %zu: %s\n", LEG_FAULT_LINE(word), LEG_FAULT_COLUMN(word), leg_sentence(LEG_NUMBER(word)));
    return LEG_COUNT(word);
}

int main(void) {
    size_t length = read_list("column\n"
                              "  leg 1\n"
                              "  row\n"
                              "    Home pad\n"
                              "    take off\n");
    if (length == 0) return 1;
    uint64_t word = leg_print_sheet(LEG_DEFAULTS, LEG_SETTINGS_BYTES, tree, length, sheet, sizeof sheet);
    if (LEG_NUMBER(word) != 0) {
        printf("refused: %s\n", leg_sentence(LEG_NUMBER(word)));
        return 1;
    }
    printf("%.*s\n", (int)LEG_COUNT(word), (const char *)sheet);

    uint16_t found[LEG_PLACE];
    word = leg_place(LEG_DEFAULTS, LEG_SETTINGS_BYTES, tree, length, 3, 14, found, LEG_PLACE);
    if (LEG_NUMBER(word) == LEG_ACCEPTED) {
        printf("node %u: line %u, column %u of its block\n", found[LEG_PLACE_NODE], found[LEG_PLACE_LINE], found[LEG_PLACE_COLUMN]);
    }
    read_list("row\n"
              "   Home pad\n");
    return 0;
}
