/* Leg sheets: bordered tables of nested rows and columns. Each function below is proved to answer and to write what its definition says, for every input (README.md, 'What is proved').
 * The archive libleg_sheet.a holds them, and needs nothing but memcpy and memset (x86-64 Linux).
 *
 * A lent list, memory of the caller's, is a pointer and then its length in items (not bytes). Give a pointer that is not null, aligned for the items, to as many
 * items as the length says, even where the length is 0; lists that are written must overlap no other argument. Nothing else is required:
 * any bytes and any numbers may be passed.
 *
 * Every function answers a word: LEG_NUMBER is 0 or a refusal's number from the list below, LEG_COUNT what was counted or written, 0 beside a
 * refusal. Each function below names its refusals in the order of its tests; 2 to 5 and 17 are tested element by element in node order, at
 * each one 2, 5, 4, then 3 of a Cell or 17 of a range. A refusal writes to none of the lent lists; the line and the column of a typed list's fault are part of the answer, and are in
 * the word: LEG_FAULT_LINE, LEG_FAULT_COLUMN. Where nothing is refused, items past those said to be written stay as they were.
 *
 * Memory. A null pointer, a pointer to fewer items than its length says, and a list that is written and overlaps another argument, even in one byte, are not memory-safe: the
 * functions were proved for lists that exist and do not overlap, and with others they may read and write anywhere. Lists that are only read may overlap, and may be constant.
 *
 * Threads. Any number of threads may call any of the functions at once, also on the same lists where none of these is written. Nothing is kept between calls and nothing is
 * allocated; no call waits, reads a clock, or touches errno.
 *
 * Stack. Give a thread that calls them 96 kilobytes of stack: boundary/check runs every function, at depth 16 too, in a thread that has no more. With less a call is not memory-safe.
 *
 * Versions. LEG_VERSION_* are the header's. With a new PATCH nothing changes that a caller can see. With a new MINOR functions, constants and refusals' numbers may be added, and what was there stays
 * as it was: a program that was built with a header of the same MAJOR and the same or a lower MINOR runs with the library. Everything else is a new MAJOR: a parameter, a type, a length, the place of a number in a
 * list, the order of refusals. So take any number other than 0 as a refusal, also one that the table below does not have.
 *
 * Settings, trees and stores are bytes (hex below). docs/FORMS.md has them with pictures, examples and the meaning of each; examples/build.c builds a tree.
 *
 * Settings, 31 bytes, or 42 with a margin. 10 00 1C, then
 *   15 marks, 20 to 7E: top, bottom, left, right, horizontal, vertical (these two are never printed), top_left, top_right, top_intersection,
 *      bottom_left, bottom_right, bottom_intersection, left_intersection, right_intersection, intersection; or fifteen 00: a sheet without lines (below)
 *   4 padding sizes, 0 to 16 (decimal): left, right, top, bottom; 4 fills in that order, 20 to 7E
 *   horizontal alignment (0 left, 1 center, 2 right), vertical alignment (0 top, 1 center, 2 bottom), line mode (0 moves all lines of a text
 *      as its widest, 1 each by itself), width priority and height priority (0 First, 1 Last, 2 List)
 * The defaults: "\x10\x00\x1C" "--||-|+++++++++" "\x01\x01\x00\x00" "    " "\x00\x00\x00\x01\x02".
 * The margin is around the whole sheet. After these 31 bytes, 11 00 08, then
 *   4 sizes, 0 to 16 (decimal): left, right, top, bottom; 4 fills in that order, 20 to 7E; the left and right ones go from the first line to the last
 * W and H, 400 and 160 at the most, are the columns and lines of the sheet with its margin: the root's natural width or height, 2 for the edge, and the
 * margin's sizes on both sides. Sizes, leaf records and blocks have no margin in them.
 * Without lines no mark is printed, and no column or line is kept for one: the 1 between neighbours and the 2 for the edge are 0. A block is then as large as the
 * leaf's allotted size. A leaf of width 0 is its height - 1 line feeds, a sheet of W = 0 is H - 1 line feeds, and no place is in either. Cuts, split lists and flags are as with
 * lines. A mixture of marks and 00 is refused with 1.
 *
 * A tree, one element. An element is a tag, the length of its contents in two bytes, the high one first, and its contents:
 *   01 Cell: a text, bytes 20 to 7E, and 0A between its lines
 *   02 Row, 03 Column: elements, side by side or one under another
 * The root ends where the bytes end. Nodes are numbered from 0 in the order of their tags. Column[`ab`, `c`]: 03 00 09 01 00 02 61 62 01 00 01 63.
 * A planning tree, which leg_plan alone takes (to every other function the tag is unknown), has also, for texts that are not known yet,
 *   04 range, 4 bytes: the least and the greatest width of the text, the least and the greatest count of its lines (1 or more)
 *
 * Two trees are alike where they differ only inside Cells' texts, each text having in both the same number of lines, line for line of the same length: as a key and its question
 * paper (leg_blank). With all other arguments equal, alike trees without a forbidden text byte get the same word from every function, and the same numbers in every list. Sheets
 * and blocks, stores that keep such trees, and trees that are returned or blanked, are then the same but for the texts' own bytes: those of the lines themselves, where they are printed.
 *
 * A store of drafts, of any length: fields back to back, then 00 to its end; bytes that are all 00 are a store without a draft. A field is a tag, 20 to 27, the length of
 * its contents in two bytes, the high one first, and its contents, a tree. Draft 'A', byte 41, has tag 20, and so on to 'H', byte 48, with tag 27; each is there
 * once at the most, in any order.
 *
 * A typed list is a tree as plain text, of up to LEG_TYPED bytes: lines split at 0A, a 0D at a line's end taken off. A line is
 *   `row` or `column`; the lines one level, two spaces, deeper are its children
 *   a text, up to the line's end, bytes 20 to 7E; \n in it is 0A, \\ a backslash. A quote mark in front is taken off, and what is behind it is a text, whatever it is:
 *      'row, '# 1, '  indented, and ' alone for the empty text
 *   a comment, any bytes after a # that only spaces are before; or blank, spaces alone
 * The first line that is no comment and not blank is the root, and all others are inside it. Column[`ab`, Row[`c`, ``]]: "column\n  ab\n  row\n    c\n    '\n" as a C string.
 */
#ifndef LEG_SHEET_H
#define LEG_SHEET_H

#include <stddef.h>
#include <stdint.h>

#ifdef __cplusplus
extern "C" {
#endif

#define LEG_VERSION_MAJOR 1
#define LEG_VERSION_MINOR 0
#define LEG_VERSION_PATCH 0

/* The parts of a word: the number in bits 32 to 39, a fault's line above it; in the lower 32 bits the count where the number is 0, else a fault's column. */
static inline size_t leg_count(uint64_t word) { return word >> 32 ? 0 : (size_t)word; }
static inline size_t leg_fault_column(uint64_t word) { return word >> 32 ? (size_t)(word & 0xFFFFFFFFu) : 0; }
#define LEG_NUMBER(word) ((uint8_t)((word) >> 32))
#define LEG_COUNT(word) leg_count(word)
#define LEG_FAULT_LINE(word) ((size_t)((word) >> 40))
#define LEG_FAULT_COLUMN(word) leg_fault_column(word)

/* The refusals: number, name and sentence of each; 30 to 39 are of typed lists. 7 never occurs any more, and is reserved. LEG_REFUSALS(X) is X(number, name, sentence) of all of them, for tables of your
 * own. */
#define LEG_REFUSALS(X) \
    X(1, LEG_BAD_SETTINGS, "the settings are malformed or out of range") \
    X(2, LEG_BAD_TREE, "the tree is too long, is cut short, or has an unknown tag, a length past the end or bytes after its end") \
    X(3, LEG_BAD_TEXT, "a text has a byte other than hex 20 to 7E and 0A") \
    X(4, LEG_TOO_MANY_NODES, "the tree has more than 512 nodes") \
    X(5, LEG_TOO_DEEP, "the tree is more than 16 deep") \
    X(6, LEG_TOO_LARGE, "the sheet has over 400 columns or over 160 lines") \
    X(8, LEG_TOO_SHORT, "a lent list or output is shorter than needed") \
    X(9, LEG_NO_LEAF, "the number names no leaf or, where texts are blanked, no Cell") \
    X(10, LEG_TOO_MANY_PIECES, "the split list has over 512 pieces") \
    X(11, LEG_NO_CHILD, "there are no children to share among, or the index is past them") \
    X(12, LEG_OUTSIDE_SHEET, "the line or column is outside the printed sheet") \
    X(13, LEG_IN_MARGIN, "the place is in the sheet's margin") \
    X(14, LEG_TOO_MANY_PLACES, "there are over 256 places") \
    X(15, LEG_NOT_A_LIST, "the tree is no Column of 1 to 200 Cells") \
    X(16, LEG_TOO_WIDE, "a cell is wider than the given width") \
    X(17, LEG_BAD_RANGE, "a range has a least above its greatest, or a least line count of 0") \
    X(18, LEG_BAD_STORE, "the store of drafts is malformed") \
    X(19, LEG_NO_DRAFT, "the name is none of A to H, or no draft has it") \
    X(20, LEG_NO_ROOM, "the store has no room for the tree beside the other drafts") \
    X(30, LEG_LIST_TOO_LONG, "the list has over 131,072 bytes") \
    X(31, LEG_BAD_CHARACTER, "only ASCII letters, digits, signs and spaces are allowed here: no tab, no accent") \
    X(32, LEG_BAD_ESCAPE, "only n or a backslash is allowed after a backslash") \
    X(33, LEG_ODD_INDENT, "a level is two spaces, and this line begins with an odd number of them") \
    X(34, LEG_SECOND_ROOT, "a second root: indent every line after the first") \
    X(35, LEG_NO_PARENT, "too deep: only a row or column has lines inside it, and these are one level deeper") \
    X(36, LEG_LIST_TOO_DEEP, "over 16 levels") \
    X(37, LEG_LIST_TOO_MANY, "over 512 rows, columns and texts") \
    X(38, LEG_LIST_TOO_LARGE, "the list is too long: with this line its tree has over 32,768 bytes") \
    X(39, LEG_LIST_EMPTY, "the list is empty: no line has a row, a column or a text")

#define LEG_ENUMERATOR(number, name, sentence) name = number,
enum leg_refusal { LEG_ACCEPTED = 0, LEG_REFUSALS(LEG_ENUMERATOR) };
#undef LEG_ENUMERATOR

/* The sentence of a number, for people: printf("refused: %s\n", leg_sentence(LEG_NUMBER(word))). */
#define LEG_CASE(number, name, sentence) case number: return sentence;
static inline const char *leg_sentence(unsigned number) {
    switch (number) {
        LEG_REFUSALS(LEG_CASE)
        default: return number == 0 ? "accepted" : "a refusal that this header does not know";
    }
}
#undef LEG_CASE

/* The limits: a sheet's columns and lines, its margin included, and its bytes, which an output for any sheet or block has; a tree's nodes, depth and bytes; the bytes of a typed list. */
#define LEG_WIDTH 400
#define LEG_HEIGHT 160
#define LEG_SHEET ((LEG_WIDTH + 1) * LEG_HEIGHT - 1)
#define LEG_NODES 512
#define LEG_DEPTH 16
#define LEG_TREE 32768
#define LEG_TYPED 131072

/* The bytes of settings, without a margin and with one; the default ones, LEG_SETTINGS_BYTES of them. (A string literal has one byte more, so hand in the constant and not its sizeof.) */
#define LEG_SETTINGS_BYTES 31
#define LEG_SETTINGS_MARGIN_BYTES 42
#define LEG_DEFAULTS ((const uint8_t *)("\x10\x00\x1C" "--||-|+++++++++" "\x01\x01\x00\x00" "    " "\x00\x00\x00\x01\x02"))

/* Lengths of the lists that are written whole. */
#define LEG_SETTINGS 28
#define LEG_MARGIN 8
#define LEG_SIZES 5
#define LEG_PIECES 512
#define LEG_LIST (1 + LEG_PIECES)
#define LEG_RECORD (13 + 2 * LEG_LIST)
#define LEG_CUT (3 + 2 * LEG_LIST)
#define LEG_LENT_CUT (4 + LEG_LIST)
#define LEG_PLACE 3
#define LEG_FOUND 3
#define LEG_ENDS 4

/* Where the numbers are in these lists. Marks are 15 numbers, padding, sizes and fills 4 each: left, right, top, bottom. A list of pieces or positions is its count, then LEG_PIECES entries. */
enum {
    LEG_SETTINGS_MARKS = 0, LEG_SETTINGS_PADDING = 15, LEG_SETTINGS_FILLS = 19,
    LEG_SETTINGS_HORIZONTAL = 23, LEG_SETTINGS_VERTICAL, LEG_SETTINGS_LINE_MODE, LEG_SETTINGS_WIDTH_PRIORITY, LEG_SETTINGS_HEIGHT_PRIORITY,
    LEG_MARGIN_SIZES = 0, LEG_MARGIN_FILLS = 4,
    LEG_SIZES_NATURAL_WIDTH = 0, LEG_SIZES_NATURAL_HEIGHT, LEG_SIZES_ALLOTTED_WIDTH, LEG_SIZES_ALLOTTED_HEIGHT, LEG_SIZES_BELOW,
    LEG_RECORD_NODE = 0, LEG_RECORD_WIDTH, LEG_RECORD_HEIGHT,
    LEG_RECORD_FIRST_ROW, LEG_RECORD_LAST_ROW, LEG_RECORD_FIRST_COL, LEG_RECORD_LAST_COL,
    LEG_RECORD_NO_RIGHT, LEG_RECORD_LEAN_TOP, LEG_RECORD_TOP_LEFT, LEG_RECORD_TOP_INTERSECTION,
    LEG_RECORD_TAKEN, LEG_RECORD_REST, LEG_RECORD_HORIZONTAL = 13, LEG_RECORD_VERTICAL = 13 + LEG_LIST,
    LEG_CUT_YES = 0, LEG_CUT_TAKEN, LEG_CUT_REST, LEG_CUT_TAKEN_LIST = 3, LEG_CUT_LEFT_LIST = 3 + LEG_LIST,
    LEG_LENT_CUT_YES = 0, LEG_LENT_CUT_TAKEN, LEG_LENT_CUT_REST, LEG_LENT_CUT_LEFT, LEG_LENT_CUT_TAKEN_LIST = 4,
    LEG_PLACE_NODE = 0, LEG_PLACE_LINE, LEG_PLACE_COLUMN,
    LEG_FOUND_HEIGHT = 0, LEG_FOUND_TRIES, LEG_FOUND_MISS,
    LEG_ENDS_LEAST_WIDTH = 0, LEG_ENDS_GREATEST_WIDTH, LEG_ENDS_LEAST_HEIGHT, LEG_ENDS_GREATEST_HEIGHT
};

/* leg_places takes up to LEG_PLACES places, each a number that LEG_AT makes of a line and a column, and writes as many answers, of which LEG_NODE, LEG_LINE and
 * LEG_COLUMN are the parts. A line or column past 32 bits counts as the greatest of 32 bits: both are outside every sheet. */
#define LEG_PLACES 256
#define LEG_32(n) ((uint64_t)(n) >> 32 ? 0xFFFFFFFFu : (uint64_t)(n))
#define LEG_AT(line, column) (LEG_32(line) << 32 | LEG_32(column))
#define LEG_NODE(answer) ((size_t)((answer) >> 32))
#define LEG_LINE(answer) ((size_t)((answer) >> 16 & 0xFFFFu))
#define LEG_COLUMN(answer) ((size_t)((answer) & 0xFFFFu))

/* leg_fold takes lists of up to LEG_CELLS Cells, and writes no more Columns. */
#define LEG_CELLS 200

/* A draft is a tree of up to LEG_TREE bytes; a store of LEG_STORE bytes has room for any eight. */
#define LEG_STORE (8 * (3 + LEG_TREE))

/* Reads settings of 31 or 42 bytes. 1, 8. Writes the 28 numbers after the first tag and length: 15 marks, or 15 zeros; padding left, right, top, bottom;
 * their fills; horizontal and vertical alignment; line mode; width and height priority. Counts 28. */
uint64_t leg_read_settings(const uint8_t *bytes, size_t bytes_len, uint16_t *out, size_t out_len);

/* Reads the same settings bytes. 1, 8. Writes the margin's 8 numbers: left, right, top, bottom; their fills (0 0 0 0 and 32 each without the field).
 * Counts 8. */
uint64_t leg_read_margin(const uint8_t *bytes, size_t bytes_len, uint16_t *out, size_t out_len);

/* Reads a tree. 2 to 5. Counts its nodes. */
uint64_t leg_read_tree(const uint8_t *tree, size_t tree_len);

/* The sizes of a tree's nodes. 1 to 5, and 8 where the list has under 5 numbers a node. Writes for each node, in node order: natural width, natural height,
 * allotted width, allotted height, and how many nodes are below it, 0 for a leaf. Node n's next sibling is n + 1 + the nodes below n exactly where this is no more
 * than its parent's number + the nodes below its parent; elsewhere, as for the root, it has none. Counts nodes. */
uint64_t leg_sizes(const uint8_t *settings, size_t settings_len, const uint8_t *tree, size_t tree_len, uint16_t *list, size_t list_len);

/* A leaf's record. 1 to 6, 9; 8 last, where `out` has under LEG_RECORD numbers. Writes node, width, height; first_row, last_row, first_col, last_col,
 * no_right, lean_top, top_left, top_intersection (1 or 0); the pair (leg_short_splits3) of the cut that its parent made for it, of the horizontal list in
 * a Row, of the vertical one in a Column; 0 0 for the root; the horizontal list, then the vertical one, each a count and 512 entries with 0 past the
 * count. A length left of 0 in the pair tells nothing: borders may meet there, nothing may be there, or the piece was lost on the way into a nested group. Ask leg_place for the cell
 * above the crossing at the leaf's top right, or in a Column beside the one at its bottom left: the place one line above the crossing, or one column to its left. Counts
 * LEG_RECORD. */
uint64_t leg_leaf_record(const uint8_t *settings, size_t settings_len, const uint8_t *tree, size_t tree_len, size_t node, uint16_t *out, size_t out_len);

/* Prints a leaf's block, its lines joined by 0A. 1 to 6, 9, 8. Counts the bytes written. */
uint64_t leg_print_leaf(const uint8_t *settings, size_t settings_len, const uint8_t *tree, size_t tree_len, size_t node, uint8_t *out, size_t out_len);

/* Prints the sheet with its margin, its lines joined by 0A: (W + 1) * H - 1 bytes, at most 64,159. 1 to 6, 8. Counts the bytes written. */
uint64_t leg_print_sheet(const uint8_t *settings, size_t settings_len, const uint8_t *tree, size_t tree_len, uint8_t *out, size_t out_len);

/* From a place to its leaf: line `line`, column `column` of the sheet as printed, both counted from 0, the margin included. 1 to 6, 12, 13; 8 last, where `out`
 * has under LEG_PLACE numbers. Writes the leaf's node, and the line and the column inside its block. Counts LEG_PLACE. */
uint64_t leg_place(const uint8_t *settings, size_t settings_len, const uint8_t *tree, size_t tree_len, size_t line, size_t column, uint16_t *out, size_t out_len);

/* The leaves of many places, in one walk over the tree, each as leg_place answers it alone; in any order, repeats allowed. 1 to 6; 14 by the count alone; the 12 or
 * 13 of the first place that has one; 8 last, where `answers` has fewer numbers than `places`. Writes an answer for each place, in the order of the places, and to
 * `read` how many elements the walk read: the tree's nodes, even for no places. Counts the answers. */
uint64_t leg_places(const uint8_t *settings, size_t settings_len, const uint8_t *tree, size_t tree_len, const uint64_t *places, size_t places_len, uint64_t *answers, size_t answers_len, uint64_t *read);

/* Folds a long list, a Column of 1 to LEG_CELLS Cells, in order, into Columns of one Row that is no wider inside than `width`: the Columns' widths and 1 between
 * neighbours (0 without lines), the sheet's edges and margin not counted. A height t is tried by putting cells in a Column while its height, with as much between them, stays within t. One
 * Column is the beginning; then t is one lower each time, down to the tallest cell, with `budget` tries at the most. 1 to 5, 15, 16 (by the cell's width with its
 * padding); 8 last, where `columns` has fewer numbers than the answer has Columns. Writes how many cells each Column has at the least t that fitted; and to `found`
 * LEG_FOUND numbers: that t, the tries made, and the most by which t can exceed the least that fits: 0 if every t was tried, else t less the tallest cell's height.
 * Counts the Columns. */
uint64_t leg_fold(const uint8_t *settings, size_t settings_len, const uint8_t *tree, size_t tree_len, size_t width, size_t budget, uint16_t *columns, size_t columns_len, uint64_t found[LEG_FOUND]);

/* How large the sheet of a planning tree will be. 1 to 5 and 17. Writes to `ends` LEG_ENDS numbers: the least and the greatest W, the least and the greatest H.
 * Whatever texts within the ranges are put in, the sheet's W and H are between these, and each of the four is reached by some texts; the limits on W, H and the bytes of
 * the tree with its texts are ignored. Counts LEG_ENDS. */
uint64_t leg_plan(const uint8_t *settings, size_t settings_len, const uint8_t *tree, size_t tree_len, uint32_t ends[LEG_ENDS]);

/* The letters that widen the sheet: for each Cell the smallest number of letters which, added to its longest line alone, makes W larger. No smaller addition to that Cell
 * alone changes W; the limits on W and the tree's bytes are ignored. 1 to 5; 8 last, where `nodes` or `letters` has fewer numbers than there are Cells. Writes for each
 * Cell its node to `nodes` and the number of letters to `letters`, at the same index: the smallest number first, equal ones by node. Empty Rows and Columns are not
 * listed. Counts the Cells, 512 at the most. */
uint64_t leg_widen(const uint8_t *settings, size_t settings_len, const uint8_t *tree, size_t tree_len, uint16_t *nodes, size_t nodes_len, uint32_t *letters, size_t letters_len);

/* Saves a tree in a store under a name, 'A' to 'H': an older draft of that name is dropped, the drafts behind it move down, and the new one is last; the other drafts keep
 * their bytes. 18 (the trees inside are not read); 19; the tree's own 2 to 5; 20 where the other fields, 3 and `tree_len` are together more than `store_len`: the older
 * draft is not counted, and stays. Writes the store. Counts 0. */
uint64_t leg_save_draft(uint8_t *store, size_t store_len, uint8_t name, const uint8_t *tree, size_t tree_len);

/* Forgets a draft: those behind it close up, and the bytes that are freed at the end are 00. 18, 19. Writes the store. Counts 0. */
uint64_t leg_forget_draft(uint8_t *store, size_t store_len, uint8_t name);

/* Returns to a draft: copies its tree to `out`. 18, 19; 8 where `out` has fewer bytes. After any calls of these three on a store that was all 00, this is the tree of the
 * last accepted save under the name, unless it was forgotten since. Counts the bytes copied. */
uint64_t leg_return_draft(const uint8_t *store, size_t store_len, uint8_t name, uint8_t *out, size_t out_len);

/* The question paper of a key: writes the tree to `out` with the texts of some Cells blanked. Each byte of such a text other than 0A is a dot, 2E; all else is as it was.
 * `nodes` has the numbers of these Cells, in any order, repeats allowed; without a number every Cell is blanked. 2 to 5; 9 where a number names no Cell: it is past the last
 * node, or of a Row or a Column, also of an empty one; 8 last, where `out` has under `tree_len` bytes. What is written is a tree alike to this one. Counts `tree_len`. */
uint64_t leg_blank(const uint8_t *tree, size_t tree_len, const uint16_t *nodes, size_t nodes_len, uint8_t *out, size_t out_len);

/* Reads a typed list: writes its tree to `out`, as every other function takes it. 30; the fault of the first line that has one: 31 or 32, whichever byte comes first in it, then
 * 33, then 34, 35, 36, 37, 38 in this order; 39 behind the last line; 8 last, where `out` has fewer bytes than the tree, which has LEG_TREE at the most. LEG_FAULT_LINE and
 * LEG_FAULT_COLUMN of the word are the fault's line and column, counted from 1 and in bytes; 0 and 0 where it is accepted, and for 8 and 30. The column of 31 is that byte, of 32
 * the byte behind the backslash, whatever it is, or the line's end; of 33 to 38 the first byte behind the spaces; 39 is at column 1 of the last line. Settings are not part of a typed list.
 * Counts the tree's bytes. */
uint64_t leg_read_typed(const uint8_t *text, size_t text_len, uint8_t *out, size_t out_len);

/* Cuts the list of the first `count` of `pieces` at `w`; numbers past them are not looked at. 8 where `pieces` has under `count` numbers or `out` under
 * LEG_CUT; 10. Writes yes or no (1 or 0); the cut's pair: how many pieces it took, and the length left of the first piece not taken, 0 if there is none or it
 * was removed; the list taken, the list left, each a count and 512 entries with 0 past the count. Counts LEG_CUT. */
uint64_t leg_short_splits3(const uint16_t *pieces, size_t pieces_len, size_t count, uint16_t w, uint16_t *out, size_t out_len);

/* The same cut, with the list left written over the lent one. 8 where `pieces` has under `count` numbers or `out` under LEG_LENT_CUT; 10. Writes the first
 * 512 numbers of `pieces`, or all where it has fewer: the list left with 0 past its count; and to `out` yes or no, the pair, the count left, the list taken as
 * above. Counts LEG_LENT_CUT. */
uint64_t leg_short_splits3_lent(uint16_t *pieces, size_t pieces_len, size_t count, uint16_t w, uint16_t *out, size_t out_len);

/* `short_splits` of the first `count` of `pieces`. 8 where `pieces` has under `count` numbers, or `positions` or `left` under LEG_LIST; 10. Writes the
 * positions and the list left, each a count and 512 entries with 0 past the count. Counts LEG_LIST. */
uint64_t leg_short_splits(const uint16_t *pieces, size_t pieces_len, size_t count, uint16_t w, uint32_t *positions, size_t positions_len, uint16_t *left, size_t left_len);

/* The part of `spare` that child `index` of `n` gets. 11. Priority 0 is First, 1 Last, every number over 1 List. Writes the part. Counts 0. */
uint64_t leg_share(size_t spare, size_t n, uint8_t priority, size_t index, uint64_t *part);

#ifdef __cplusplus
}
#endif

#endif
