/* The board at a node: each decision by its smallest text, with number, sums and stones; and one node more upon the board
 * of the parent, which gives the same along every line. */
#include "sgf.h"

#include <stdio.h>
#include <string.h>

enum { ROWS = 256 };
static uint32_t trees[SGF_TREE_STRIDE * ROWS], nodes[SGF_NODE_STRIDE * ROWS], properties[SGF_PROPERTY_STRIDE * ROWS], values[SGF_VALUE_STRIDE * ROWS];
#define TABLES trees, sizeof trees / 4, nodes, sizeof nodes / 4, properties, sizeof properties / 4, values, sizeof values / 4

/* A text and a node; the number; black and white put on and taken off; the stones, column by column, in SGF's letters. */
static const struct {
    const char *text;
    size_t node;
    uint32_t number;
    uint64_t sums[4];
    const char *black, *white;
} cases[] = {
    {"(;SZ[3]AB[aa]AW[ab][ba];W[cc])", 1, 0, {1, 1, 3, 0}, "", "abbacc"},
    {"(;SZ[2]AB[aa][ab][ba][bb];W[])", 1, 0, {4, 0, 0, 0}, "aaabbabb", ""},
    {"(;SZ[2]AB[aa][ab][ba][bb];B[aa])", 1, 0, {4, 4, 0, 0}, "", ""},
    {"(;SZ[2]B[aa];W[aa])", 1, 0, {1, 1, 1, 0}, "", "aa"},
    {"(;SZ[1];B[aa])", 1, 0, {1, 1, 0, 0}, "", ""},
    {"(;SZ[2:1];B[aa];W[ba])", 2, 0, {1, 1, 1, 0}, "", "ba"},
    {"(;SZ[2]B[aa]AB[aa])", 0, 0, {1, 0, 0, 0}, "aa", ""},
    {"(;SZ[1]AB[aa])", 0, 0, {1, 0, 0, 0}, "aa", ""},
    {"(;AB[aa]AB[aa])", 0, 23, {0}, "", ""},
    {"(;AB[aa]AE[aa])", 0, 23, {0}, "", ""},
    {"(;AB[aa][aa])", 0, 0, {1, 0, 0, 0}, "aa", ""},
    {"(;AE[aa])", 0, 0, {0}, "", ""},
    {"(;AB[tt])", 0, 23, {0}, "", ""},
    {"(;B[tt])", 0, 0, {0}, "", ""},
    {"(;SZ[20]B[tt])", 0, 0, {1, 0, 0, 0}, "tt", ""},
    {"(;SZ[20:5];B[tt])", 1, 23, {0}, "", ""},
    {"(;SZ[52]B[zz]B[a])", 0, 0, {1, 0, 0, 0}, "zz", ""},
    {"(;SZ[9]TB[tt])", 0, 0, {0}, "", ""},
    {"(;(;B[zz])(;B[aa]))", 2, 0, {1, 0, 0, 0}, "aa", ""},
    {"(;(;B[zz])(;B[aa]))", 1, 23, {0}, "", ""},
    {"(;GM[2]SZ[x])", 0, 21, {0}, "", ""},
    {"(;SZ[9]SZ[9])", 0, 22, {0}, "", ""},
    {"(;SZ[9]SZ[9]B[zz])", 0, 22, {0}, "", ""},
    {"(;SZ[53])", 0, 22, {0}, "", ""},
    {"(;)", 1, 21, {0}, "", ""},
    {"(;GM[2])(;SZ[9];B[ii])", 2, 0, {1, 0, 0, 0}, "ii", ""},
    {"(;SZ[1]B[bb];C[x])", 1, 23, {0}, "", ""},
    {"(;SZ[9]B[aa];SZ[1];W[bb])", 2, 0, {1, 0, 1, 0}, "aa", "bb"},
    {"(;SZ[3]AB[aa][ab]AW[ba];AE[aa];W[bb])", 2, 0, {2, 1, 2, 0}, "ab", "babb"},
};
enum { CASES = sizeof cases / sizeof *cases };

static SgfReading read_text(const char *text) { return sgf_read_strict((const uint8_t *)text, strlen(text), 0, TABLES); }

static int place(const char *at) {
    int x = at[0] >= 'a' ? at[0] - 'a' : at[0] - 'A' + 26, y = at[1] >= 'a' ? at[1] - 'a' : at[1] - 'A' + 26;
    return SGF_POINT_PLACE(x, y);
}

static int same(const SgfBoard *a, const SgfBoard *b) {
    return a->number == b->number && a->columns == b->columns && a->rows == b->rows && a->reserved == b->reserved && a->black_on == b->black_on
           && a->black_off == b->black_off && a->white_on == b->white_on && a->white_off == b->white_off
           && memcmp(a->stones, b->stones, SGF_POINT_PLACES) == 0;
}

int main(void) {
    int wrong = 0;
    size_t compared = 0;
    for (size_t i = 0; i < CASES; i++) {
        SgfReading r = read_text(cases[i].text);
        size_t used = strlen(cases[i].text);
#define RECORD (const uint8_t *)cases[i].text, used, used, r.counts, TABLES
        SgfBoard board = sgf_board(RECORD, cases[i].node);
        SgfBoard want = {0};
        want.number = cases[i].number;
        if (want.number == 0) {
            want.columns = board.columns, want.rows = board.rows;
            want.black_on = cases[i].sums[0], want.black_off = cases[i].sums[1], want.white_on = cases[i].sums[2], want.white_off = cases[i].sums[3];
            for (const char *at = cases[i].black; *at; at += 2) want.stones[place(at)] = SGF_BLACK;
            for (const char *at = cases[i].white; *at; at += 2) want.stones[place(at)] = SGF_WHITE;
        }
        if (r.number != 0 || !same(&board, &want)) {
            printf("board: %s at node %zu: number %u, sums %llu %llu %llu %llu\n", cases[i].text, cases[i].node, board.number,
                   (unsigned long long)board.black_on, (unsigned long long)board.black_off, (unsigned long long)board.white_on,
                   (unsigned long long)board.white_off);
            wrong++;
        }
        for (size_t k = 0; k < r.counts.nodes; k++) {
            const uint32_t *row = nodes + k * SGF_NODE_STRIDE;
            if (row[0] == SGF_NONE) continue;
            SgfBoard upon = sgf_board(RECORD, row[0]);
            upon.reserved = 7;
            SgfBoard next = sgf_board_next(upon, (const uint8_t *)cases[i].text, used, properties, sizeof properties / 4, values,
                                           sizeof values / 4, row[3], row[4]);
            SgfBoard whole = sgf_board(RECORD, k);
            compared++;
            if (!same(&next, &whole)) {
                printf("board: %s: node %zu upon its parent's board is not its board\n", cases[i].text, k);
                wrong++;
            }
        }
    }
    /* 19 before all else; rows that are not there are no properties; what is neither empty, black nor white stays. */
    SgfReading r = read_text("(;SZ[9]SZ[9])");
    SgfCounts counts = r.counts;
    counts.values++;
    if (sgf_board((const uint8_t *)"(;SZ[9]SZ[9])", 13, 13, counts, TABLES, 9).number != 19) puts("board: 19 is not first"), wrong++;
    SgfBoard odd = {0};
    odd.columns = 2, odd.rows = 1, odd.stones[0] = 3, odd.white_on = UINT64_MAX;
    r = read_text("(;W[ba])");
    SgfBoard next = sgf_board_next(odd, (const uint8_t *)"(;W[ba])", 8, properties, sizeof properties / 4, values, sizeof values / 4, 0, 1);
    if (next.stones[0] != 3 || next.stones[52] != 0 || next.white_on != UINT64_MAX || next.white_off != 1) puts("board: an odd board"), wrong++;
    next = sgf_board_next(odd, (const uint8_t *)"", 0, properties, 0, values, 0, (size_t)-1, (size_t)-1);
    if (!same(&next, &odd)) puts("board: rows that are not there"), wrong++;
    if (wrong == 0) printf("board: %d texts and %zu nodes as they should be\n", (int)CASES, compared);
    return wrong != 0;
}
