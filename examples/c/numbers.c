/* Every number of include/sgf.h, 0 to 24, from every function that gives it, with its place, and in the order in which a
 * function gives them. A refusal leaves all lent memory as it was, and all that it counts is 0. */
#include "sgf.h"

#include <stdio.h>
#include <string.h>

enum { READ, FITS, VALUE, DISPLAY, GO_VALUE, WRITE, EDIT, CORRECT, CORRECTED, CHECK, SIZE, TALLY, LINE, BOARD, NEXT, TRIM, TOKEN, DISPLAY_VALUE, CALLS };
enum { LENIENT = 1, SHORT = 4 };
enum { FIT, DAMAGED, DEEPER }; /* the tables of a reading; with a game type that there is not; with a root of depth 1 */
enum { ROOM = 64, ROWS = 1100, LONG = SGF_TEXT_LIMIT };

/* Texts at a limit and one more: a comment of so many bytes, trees in trees, and a value. */
static char longest[LONG + 1], too_long[LONG + 2], deepest[3 * 1024 + 1], too_deep[3 * 1025 + 1], long_value[LONG + 1];

/* A feed that makes value 1 as long as a text may be. */
static char longer_feed[LONG + 16];

typedef struct {
    uint32_t number;
    size_t place;
    int call;
    const char *text;
    uint32_t how; /* of the reading: LENIENT; with SHORT a row too few is lent */
    int state;
    size_t k;
    const char *given; /* the new value of an edit, or a feed */
    size_t room;       /* bytes lent to write to, or behind the text of an edit or a feed */
} Row;

static const Row rows[] = {
    {0, 0, READ, "(;);", 0, FIT, 0, "", 0},
    {0, 0, READ, longest, 0, FIT, 0, "", 0},
    {1, 0, READ, too_long, 0, FIT, 0, "", 0},
    {1, 0, READ, too_long, LENIENT, FIT, 0, "", 0},
    {2, 4, READ, "(;B)\xFF", 0, FIT, 0, "", 0},
    {2, 4, READ, "(;B)\xFF", LENIENT, FIT, 0, "", 0},
    {3, 2, READ, "(;B)", 0, FIT, 0, "", 0},
    {4, 8, READ, "(;C[\xC3\xA9];B\xC3\xA9[aa", 0, FIT, 0, "", 0},
    {5, 2, READ, "(;A[x\\]", 0, FIT, 0, "", 0},
    {6, 0, READ, ")", 0, FIT, 0, "", 0},
    {7, 0, READ, "(;", 0, FIT, 0, "", 0},
    {7, 0, READ, "()", 0, FIT, 0, "", 0},
    {8, 0, READ, "", 0, FIT, 0, "", 0},
    {0, 0, READ, deepest, 0, FIT, 0, "", 0},
    {9, 0, READ, too_deep, 0, FIT, 0, "", 0},
    {9, 0, READ, too_deep, LENIENT, FIT, 0, "", 0},
    {10, 0, READ, "((;))", 0, FIT, 0, "", 0},
    {11, 0, READ, "(B[aa])", 0, FIT, 0, "", 0},
    {11, 0, READ, "(;GM[1]GM[x])", 0, FIT, 0, "", 0},
    {12, 0, READ, "(;GM[x])", 0, FIT, 0, "", 0},
    {0, 0, READ, "(;Black[aa])", 0, FIT, 0, "", 0},
    {14, 0, READ, "(;B[aa])", SHORT, FIT, 0, "", 0},
    {14, 0, READ, "(;B[aa])", LENIENT | SHORT, FIT, 0, "", 0},
    {0, 0, FITS, "(;C[ab])", 0, FIT, 0, "", 0},
    {19, 0, FITS, "(;C[ab])", 0, DAMAGED, 0, "", 0},
    {19, 0, FITS, "(;C[ab])", 0, DEEPER, 0, "", 0},
    {0, 0, VALUE, "(;C[ab])", 0, FIT, 0, "", 0},
    {16, 0, VALUE, "(;C[ab])", 0, FIT, 1, "", 0},
    {19, 0, VALUE, "(;C[ab])", 0, DAMAGED, 1, "", 0},
    {19, 0, VALUE, "(;C[ab])", 0, DEEPER, 0, "", 0},
    {0, 0, DISPLAY, "(;C[ab])", 0, FIT, 0, "", 2},
    {14, 0, DISPLAY, "(;C[ab])", 0, FIT, 0, "", 1},
    {16, 0, DISPLAY, "(;C[ab])", 0, FIT, 1, "", 0},
    {19, 0, DISPLAY, "(;C[ab])", 0, DAMAGED, 1, "", 0},
    {0, 0, DISPLAY_VALUE, "a\\]b", 0, FIT, 0, "", 3},
    {14, 0, DISPLAY_VALUE, "a\\]b", 0, FIT, 0, "", 2},
    {0, 0, DISPLAY_VALUE, "", 0, FIT, 0, "", 0},
    {0, 0, GO_VALUE, "(;B[ab])", 0, FIT, 0, "", 0},
    {16, 0, GO_VALUE, "(;B[ab])", 0, FIT, 1, "", 0},
    {19, 0, GO_VALUE, "(;B[ab])", 0, DAMAGED, 1, "", 0},
    {0, 0, WRITE, "(;B[ab])", 0, FIT, 0, "", 8},
    {14, 0, WRITE, "(;B[ab])", 0, FIT, 0, "", 7},
    {15, 0, WRITE, "(;[x])", 0, FIT, 0, "", 0},
    {19, 0, WRITE, "(;[x])", 0, DAMAGED, 0, "", 0},
    {19, 0, WRITE, "(;B[ab])", 0, DEEPER, 0, "", 8},
    {0, 0, EDIT, "(;C[ab])", 0, FIT, 0, "abcd", 2},
    {14, 0, EDIT, "(;C[ab])", 0, FIT, 0, "abcd", 1},
    {1, 0, EDIT, "(;C[ab])", 0, FIT, 0, long_value, 1},
    {18, 0, EDIT, "(;C[ab])", 0, FIT, 0, "x]", 0},
    {18, 0, EDIT, "(;C[ab])", 0, FIT, 0, "x\\", 0},
    {2, 1, EDIT, "(;C[ab])", 0, FIT, 0, "]\xFF", 0},
    {17, 0, EDIT, "(;GM[1])", 0, FIT, 0, "\xFF", 0},
    {16, 0, EDIT, "(;GM[1])", 0, FIT, 1, "\xFF", 0},
    {19, 0, EDIT, "(;GM[1])", 0, DAMAGED, 1, "\xFF", 0},
    {19, 0, EDIT, "(;C[ab])", 0, DEEPER, 0, "abcd", 2},
    {0, 0, CORRECT, "(;C[ab][cd])", 0, FIT, 0, "\001\001\003xyz", 1},
    {19, 0, CORRECT, "(;C[ab][cd])", 0, DAMAGED, 0, "\001", 1},
    {24, 0, CORRECT, "(;C[ab][cd])", 0, FIT, 0, "\001\011", 1},
    {16, 0, CORRECT, "(;C[ab][cd])", 0, FIT, 0, "\001\011\001x", 1},
    {17, 0, CORRECT, "(;C[ab]GM[1])", 0, FIT, 0, "\001\001\001\377", 1},
    {2, 3, CORRECT, "(;C[ab][cd])", 0, FIT, 0, "\001\001\001\377", 1},
    {18, 0, CORRECT, "(;C[ab][cd])", 0, FIT, 0, "\001\001\001]", 1},
    {1, 0, CORRECT, "(;C[ab][cd])", 0, FIT, 0, longer_feed, 1},
    {14, 0, CORRECT, "(;C[ab][cd])", 0, FIT, 0, "\001\001\003xyz", 0},
    {0, 0, CORRECTED, "(;C[ab][cd])", 0, FIT, 1, "\001\001\001x", 0},
    {19, 0, CORRECTED, "(;C[ab][cd])", 0, DAMAGED, 9, "\001", 0},
    {24, 0, CORRECTED, "(;C[ab][cd])", 0, FIT, 9, "\001", 0},
    {2, 3, CORRECTED, "(;C[ab][cd])", 0, FIT, 9, "\001\001\001\377", 0},
    {16, 0, CORRECTED, "(;C[ab][cd])", 0, FIT, 2, "\001\001\001x", 0},
    {0, 0, CHECK, "(;C[ab][cd])", 0, FIT, 0, "\001\001\003xyz", 0},
    {19, 0, CHECK, "(;C[ab][cd])", 0, DAMAGED, 0, "\001", 0},
    {24, 0, CHECK, "(;C[ab][cd])", 0, FIT, 0, "\001\001\001xx", 0},
    {17, 0, CHECK, "(;C[ab]GM[1])", 0, FIT, 0, "\001\001\001]", 0},
    {18, 0, CHECK, "(;C[ab][cd])", 0, FIT, 0, "\001\001\001]", 0},
    {0, 0, SIZE, "(;SZ[9])", 0, FIT, 0, "", 0},
    {16, 0, SIZE, "(;SZ[9])", 0, FIT, 1, "", 0},
    {19, 0, SIZE, "(;SZ[9])", 0, DAMAGED, 1, "", 0},
    {0, 0, TALLY, "(;B[aa])", 0, FIT, 0, "", 0},
    {19, 0, TALLY, "(;B[aa])", 0, DAMAGED, 0, "", 0},
    {19, 0, TALLY, "(;B[aa])", 0, DEEPER, 0, "", 0},
    {0, 0, LINE, "(;B[ab])", 0, FIT, 0, "", 8},
    {14, 0, LINE, "(;B[ab])", 0, FIT, 0, "", 7},
    {15, 0, LINE, "(;[x])", 0, FIT, 0, "", 0},
    {19, 0, LINE, "(;[x])", 0, DAMAGED, 0, "", 0},
    {19, 0, LINE, "(;B[ab])", 0, DEEPER, 0, "", 8},
    {0, 0, BOARD, "(;SZ[9];B[aa])", 0, FIT, 1, "", 0},
    {19, 0, BOARD, "(;SZ[9];B[aa])", 0, DAMAGED, 2, "", 0},
    {21, 0, BOARD, "(;SZ[9];B[aa])", 0, FIT, 2, "", 0},
    {21, 0, BOARD, "(;GM[2]SZ[x];B[aa])", 0, FIT, 1, "", 0},
    {22, 0, BOARD, "(;SZ[9]SZ[9];B[zz])", 0, FIT, 1, "", 0},
    {23, 0, BOARD, "(;SZ[9];B[jj])", 0, FIT, 1, "", 0},
    {0, 0, NEXT, "(;SZ[9];B[aa])", 0, FIT, 1, "", 0},
    {23, 0, NEXT, "(;SZ[9];B[jj])", 0, FIT, 1, "", 0},
    {23, 0, NEXT, "(;SZ[9];AB[aa]AW[aa])", 0, FIT, 1, "", 0},
    {23, 0, NEXT, "(;SZ[9]AB[aa]AB[aa];B[bb])", 0, FIT, 1, "", 0},
    {22, 0, NEXT, "(;SZ[0];B[jj])", 0, FIT, 1, "", 0},
    {21, 0, NEXT, "(;GM[2];B[jj])", 0, FIT, 1, "", 0},
    {19, 0, NEXT, "(;SZ[9];B[jj])", 0, DAMAGED, 1, "", 0},
    {0, 0, TRIM, " (;) ", 0, FIT, 0, "", 0},
    {2, 1, TRIM, "(\xC3(;)", 0, FIT, 0, "", 0},
    {0, 0, TOKEN, "(;B[aa])", 0, FIT, 2, "", 0},
    {3, 2, TOKEN, "(;B)", 0, FIT, 2, "", 0},
    {4, 2, TOKEN, "(;\xC3\xA9[])", 0, FIT, 2, "", 0},
    {5, 2, TOKEN, "(;B[aa", 0, FIT, 2, "", 0},
};

/* All that is lent, and what it was. */
static struct Memory {
    uint8_t text[LONG + ROOM], out[ROOM];
    uint32_t trees[2 * ROWS], nodes[SGF_NODE_STRIDE * ROWS], properties[4 * ROWS], values[2 * ROWS];
} lent, before;

/* What a profile stores: it changes nothing but `ignored`. */
static uint32_t settings;

static SgfReading reading(size_t length, uint32_t how, size_t value_rows) {
    return (how & LENIENT ? sgf_read_lenient : sgf_read_strict)(lent.text, length, settings, lent.trees, 2 * ROWS, lent.nodes, SGF_NODE_STRIDE * ROWS,
                                                                lent.properties, 4 * ROWS, lent.values, 2 * value_rows);
}

static bool none(SgfCounts c) {
    return (c.trees | c.nodes | c.properties | c.values) == 0;
}

#define RECORD \
    lent.text, length + r->room, length, counts, lent.trees, 2 * ROWS, lent.nodes, SGF_NODE_STRIDE * ROWS, lent.properties, 4 * ROWS, \
    lent.values, 2 * ROWS

/* Makes the call: its number and place, and whether all else that it answers is 0. */
static uint32_t answer(const Row *r, uint32_t how, size_t *place, bool *is_zero) {
    size_t length = strlen(r->text);
    SgfCounts counts = {0, 0, 0, 0};
    memset(&lent, 0xA5, sizeof lent);
    memcpy(lent.text, r->text, length);
    if (r->call != READ && r->call < TRIM) {
        counts = reading(length, 0, ROWS).counts;
        lent.trees[SGF_TREE_GAME_TYPE] = r->state == DAMAGED ? 2 : lent.trees[SGF_TREE_GAME_TYPE];
        lent.nodes[SGF_NODE_DEPTH] += r->state == DEEPER;
    }
    memcpy(&before, &lent, sizeof lent);
    *place = 0;
    *is_zero = true;
    switch (r->call) {
    case READ: {
        SgfReading a = reading(length, how, how & SHORT ? 0 : ROWS);
        *place = a.place;
        *is_zero = none(a.counts);
        /* The retired switches are ignored, and every answer says so. */
        return a.ignored == settings % 4 ? a.number : SGF_INVALID_FF4_PROPERTY;
    }
    case FITS: return sgf_fits(RECORD);
    case VALUE: {
        SgfSpan a = sgf_value(RECORD, r->k);
        *is_zero = (a.from | a.to) == 0;
        return a.number;
    }
    case DISPLAY: {
        SgfDisplay a = sgf_display(RECORD, r->k, SGF_TEXT, lent.out, r->room);
        *is_zero = a.length == 0;
        return a.number;
    }
    case GO_VALUE: {
        SgfGoValue a = sgf_go_value(RECORD, r->k);
        *is_zero = a.kind == SGF_OTHER && memchr(a.marks, 1, sizeof a.marks) == NULL;
        return a.number;
    }
    case WRITE: {
        SgfWriting a = sgf_write(RECORD, lent.out, r->room);
        *is_zero = a.length == 0;
        return a.number;
    }
    case EDIT: {
        SgfEdit a = sgf_edit(RECORD, r->k, (const uint8_t *)r->given, strlen(r->given));
        *place = a.place;
        *is_zero = a.used == 0 && none(a.counts);
        return a.number;
    }
    case CORRECT: {
        SgfEdit a = sgf_correct(RECORD, (const uint8_t *)r->given, strlen(r->given));
        *place = a.place;
        *is_zero = a.used == 0 && none(a.counts);
        return a.number;
    }
    case CORRECTED: {
        SgfPart a = sgf_corrected(RECORD, (const uint8_t *)r->given, strlen(r->given), r->k);
        *place = a.place;
        *is_zero = (a.source | a.from | a.to) == 0;
        return a.number;
    }
    case CHECK: {
        SgfCheck a = sgf_feed_check(RECORD, (const uint8_t *)r->given, strlen(r->given));
        *place = a.place;
        return a.number;
    }
    case SIZE: {
        SgfSize a = sgf_size(RECORD, r->k);
        *is_zero = (a.kind | a.columns | a.rows | a.rule) == 0;
        return a.number;
    }
    case TALLY: {
        SgfTally a = sgf_tally(RECORD);
        *is_zero = (a.reserved | a.trees | a.nodes | a.black | a.white | a.passes) == 0;
        return a.number;
    }
    case LINE: {
        SgfLine a = sgf_line(RECORD, lent.out, r->room);
        *is_zero = (a.reserved | a.length | a.trees | a.nodes | a.black | a.white | a.passes) == 0 && a.tag == 0;
        return a.number;
    }
    case BOARD: {
        SgfBoard a = sgf_board(RECORD, r->k);
        *is_zero = (a.columns | a.rows | a.black_on | a.black_off | a.white_on | a.white_off) == 0 && memchr(a.stones, 1, sizeof a.stones) == NULL;
        return a.number;
    }
    case NEXT: {
        /* Upon the board of the root, whose number comes back. */
        const uint32_t *row = lent.nodes + SGF_NODE_STRIDE * r->k;
        SgfBoard a = sgf_board_next(sgf_board(RECORD, 0), lent.text, length, lent.properties, 4 * ROWS, lent.values, 2 * ROWS,
                                    row[SGF_NODE_FIRST_PROPERTY], row[SGF_NODE_PROPERTY_COUNT]);
        *is_zero = (a.columns | a.rows | a.black_on | a.black_off | a.white_on | a.white_off) == 0 && memchr(a.stones, 1, sizeof a.stones) == NULL;
        return a.number;
    }
    case TRIM: {
        SgfTrim a = sgf_trim(lent.text, length);
        *place = a.place;
        *is_zero = (a.first | a.last) == 0;
        return a.number;
    }
    case TOKEN: {
        SgfToken a = sgf_token(lent.text, length, r->k);
        *place = a.number != 0 ? a.from : 0;
        return a.number;
    }
    default: {
        SgfDisplay a = sgf_display_value(SGF_TEXT, lent.text, length, lent.out, r->room);
        *is_zero = a.length == 0;
        return a.number;
    }
    }
}

static int failures;

static void check(const Row *r, uint32_t how, uint32_t number, size_t place) {
    size_t found = 0;
    bool is_zero = false;
    uint32_t given = answer(r, how, &found, &is_zero);
    bool stays = number == 0 || (is_zero && memcmp(&before, &lent, sizeof lent) == 0);
    if (given != number || found != place || !stays) {
        printf("row %d: %u at %zu instead of %u at %zu%s\n", (int)(r - rows), (unsigned)given, found, (unsigned)number, place,
               stays ? "" : ", and not all stayed");
        failures++;
    }
}

static void make_texts(void) {
    memset(too_long, 'x', LONG + 1);
    memcpy(too_long, "(;C[", 4);
    memcpy(longest, too_long, LONG);
    memcpy(longest + LONG - 2, "])", 2);
    memcpy(too_long + LONG - 1, "])", 2);
    memset(long_value, 'x', LONG);
    memset(longer_feed, 'x', LONG + 5);
    memcpy(longer_feed, "\001\001\200\200\100", 5);
    memset(too_deep, ')', 3 * 1025);
    memset(deepest, ')', 3 * 1024);
    for (int i = 0; i < 1025; i++) {
        memcpy(too_deep + 2 * i, "(;", 2);
    }
    memcpy(deepest, too_deep, 2 * 1024);
}

int main(void) {
    unsigned seen = 0;
    make_texts();
    for (const Row *r = rows; r < rows + sizeof rows / sizeof *rows; r++) {
        for (settings = 0; settings < (r->call == READ ? 8u : 1u); settings++) {
            check(r, r->how, r->number, r->place);
            /* Lenient reading gives only 0, 1, 2, 9 and 14. */
            if (r->call == READ && (r->how & SHORT) == 0 && r->number > 2 && r->number != 9) {
                check(r, r->how | LENIENT, 0, 0);
            }
        }
        settings = 0;
        seen |= 1u << r->number;
    }
    for (int n = 0; n <= SGF_MALFORMED_FEED; n++) {
        /* 13 is given no more, and 20 not by the functions called here: by sgf_block and sgf_close, in blocks.c. */
        bool is_given = n != SGF_INVALID_FF4_PROPERTY && n != SGF_AFTER_CLOSE;
        if ((seen >> n & 1) != is_given) {
            printf("%s row gives %d\n", is_given ? "no" : "a", n);
            failures++;
        }
    }
    printf("numbers: %d rows, %d failures\n", (int)(sizeof rows / sizeof *rows), failures);
    return failures != 0;
}
