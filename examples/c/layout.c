/* Whether include/sgf.h agrees with the library: every struct by values that come back in each of its fields, every
 * number by a call that gives it. Prints what does not hold, and how many checks there were. */
#include "sgf.h"

#include <stdio.h>
#include <string.h>

static int checks, failures;

#define CHECK(holds) \
    do { \
        checks++; \
        if (!(holds)) { \
            failures++; \
            printf("line %d: %s\n", __LINE__, #holds); \
        } \
    } while (0)

enum { ROWS = 4096 };
static uint8_t text[SGF_TEXT_LIMIT + 16];
static uint32_t trees[2 * ROWS], nodes[SGF_NODE_STRIDE * ROWS], properties[4 * ROWS], values[2 * ROWS];
static size_t used;
static SgfCounts counts;

#define TABLES trees, 2 * ROWS, nodes, SGF_NODE_STRIDE * ROWS, properties, 4 * ROWS, values, 2 * ROWS
#define RECORD text, sizeof text, used, counts, TABLES

typedef SgfReading Read(const uint8_t *, size_t, uint32_t, uint32_t *, size_t, uint32_t *, size_t, uint32_t *, size_t, uint32_t *, size_t);

static SgfReading read_bytes(size_t length, Read *read, uint32_t settings) {
    SgfReading r = read(text, length, settings, TABLES);
    used = length;
    counts = r.counts;
    return r;
}

static SgfReading read_text(const char *source, Read *read, uint32_t settings) {
    memcpy(text, source, strlen(source));
    return read_bytes(strlen(source), read, settings);
}

static SgfEdit edit(size_t k, const char *replacement) {
    return sgf_edit(RECORD, k, (const uint8_t *)replacement, strlen(replacement));
}

static bool has(SgfCounts c, size_t in_trees, size_t in_nodes, size_t in_properties, size_t in_values) {
    return c.trees == in_trees && c.nodes == in_nodes && c.properties == in_properties && c.values == in_values;
}

/* The header's version is the archive's, and its string spells it. */
static void check_version(void) {
    char spelled[32];
    CHECK(sgf_version() == SGF_VERSION);
    sprintf(spelled, "%d.%d.%d", SGF_VERSION_MAJOR, SGF_VERSION_MINOR, SGF_VERSION_PATCH);
    CHECK(strcmp(spelled, SGF_VERSION_STRING) == 0);
}

static void check_tokens(void) {
    const uint8_t *source = (const uint8_t *)" (;A [x]y) ";
    SgfTrim trim = sgf_trim(source, 11);
    CHECK(trim.number == SGF_ACCEPTED && trim.place == 0 && trim.first == 1 && trim.last == 10);
    trim = sgf_trim((const uint8_t *)"a\xFF", 2);
    CHECK(trim.number == SGF_NOT_UTF8 && trim.place == 1 && trim.first == 0 && trim.last == 0);
    SgfToken token = sgf_token(source, 11, 3);
    CHECK(token.kind == SGF_PROPERTY && token.number == 0 && token.from == 3 && token.opens == 5 && token.to == 8);
    CHECK(sgf_token(source, 11, 0).kind == SGF_START && sgf_token(source, 11, 0).from == 1);
    CHECK(sgf_token(source, 11, 2).kind == SGF_NODE && sgf_token(source, 11, 9).kind == SGF_END);
    CHECK(sgf_token(source, 11, 10).kind == SGF_DONE);
    token = sgf_token(source, 11, 8);
    CHECK(token.kind == SGF_FAULT && token.number == SGF_MISSING_PROPERTY_IDENTIFIER && token.from == 8);
    SgfValue value = sgf_next_value(source, 11, 5);
    CHECK(value.kind == SGF_VALUE && value.from == 6 && value.to == 7 && value.next == 8);
    CHECK(sgf_next_value(source, 11, 8).kind == SGF_NO_VALUE && sgf_next_value(source, 7, 5).kind == SGF_UNCLOSED);
    /* A vertical tab is white space between tokens and after values. */
    source = (const uint8_t *)"(;\vB[aa]\v[bb]\v;)";
    token = sgf_token(source, 16, 2);
    CHECK(token.kind == SGF_PROPERTY && token.from == 3 && token.opens == 4 && token.to == 14);
    value = sgf_next_value(source, 16, 4);
    CHECK(value.kind == SGF_VALUE && value.from == 5 && value.to == 7 && value.next == 9);
}

static void check_reading(void) {
    SgfReading r = read_text("(;A[a][b]B[c](;)(;C[d]))(;GM[2])", sgf_read_strict, 0);
    CHECK(r.number == SGF_ACCEPTED && r.ignored == 0 && r.place == 0);
    CHECK(has(r.counts, 2, 4, 4, 5));
    CHECK(trees[SGF_TREE_ROOT] == 0 && trees[SGF_TREE_GAME_TYPE] == SGF_GO);
    CHECK(trees[SGF_TREE_STRIDE + SGF_TREE_ROOT] == 3 && trees[SGF_TREE_STRIDE + SGF_TREE_GAME_TYPE] == SGF_UNKNOWN_GAME);
    const uint32_t *node = nodes + SGF_NODE_STRIDE;
    CHECK(nodes[SGF_NODE_PARENT] == SGF_NONE && nodes[SGF_NODE_FIRST_CHILD] == 1 && nodes[SGF_NODE_PROPERTY_COUNT] == 2);
    CHECK(node[SGF_NODE_PARENT] == 0 && node[SGF_NODE_FIRST_CHILD] == SGF_NONE && node[SGF_NODE_NEXT_SIBLING] == 2);
    CHECK(node[SGF_NODE_FIRST_PROPERTY] == 2 && node[SGF_NODE_PROPERTY_COUNT] == 0);
    CHECK(nodes[SGF_NODE_DEPTH] == 0 && node[SGF_NODE_DEPTH] == 1 && nodes[2 * SGF_NODE_STRIDE + SGF_NODE_DEPTH] == 1);
    CHECK(nodes[3 * SGF_NODE_STRIDE + SGF_NODE_DEPTH] == 0);
    const uint32_t *property = properties + SGF_PROPERTY_STRIDE;
    CHECK(property[SGF_PROPERTY_IDENTIFIER_START] == 9 && property[SGF_PROPERTY_IDENTIFIER_END] == 10);
    CHECK(property[SGF_PROPERTY_FIRST_VALUE] == 2 && property[SGF_PROPERTY_VALUE_COUNT] == 1);
    CHECK(values[SGF_VALUE_STRIDE + SGF_VALUE_START] == 7 && values[SGF_VALUE_STRIDE + SGF_VALUE_END] == 8);
    r = read_text("(;\vGM[2]\v;)", sgf_read_strict, 0);
    CHECK(has(r.counts, 1, 2, 1, 1) && trees[SGF_TREE_GAME_TYPE] == SGF_UNKNOWN_GAME && properties[SGF_PROPERTY_IDENTIFIER_START] == 3);
    CHECK(edit(0, "1").number == SGF_GAME_TYPE_FIXED);
    CHECK(SGF_KEEP_IDENTIFIERS == SGF_IGNORED_CONVERSION);
    for (uint32_t settings = 0; settings < 8; settings++) {
        uint32_t ignored = settings & (SGF_IGNORED_LENIENCY | SGF_IGNORED_CONVERSION);
        r = read_text("(;a[])", sgf_read_strict, settings);
        CHECK(r.number == SGF_ACCEPTED && r.ignored == ignored && r.counts.properties == 1);
        r = read_text("(;a[]B[aa]", sgf_read_lenient, settings);
        CHECK(r.number == SGF_ACCEPTED && r.ignored == ignored && r.counts.properties == 2);
        r = read_text("(;a[]B[aa]", sgf_read_strict, settings);
        CHECK(r.number == SGF_UNEXPECTED_END_OF_DATA && r.ignored == ignored);
        r = read_text("(;\xC3)", sgf_read_lenient, settings);
        CHECK(r.number == SGF_NOT_UTF8 && r.place == 2 && r.ignored == ignored);
    }
    CHECK(read_text("", sgf_read_lenient, 0).counts.nodes == SGF_NODES_FOR(0) && SGF_TREES_FOR(0) == 1);
    CHECK(sgf_read_lenient(NULL, 0, 0, NULL, 0, NULL, 0, NULL, 0, NULL, 0).number == SGF_NO_ROOM);
}

static void check_refused_readings(void) {
    static const struct {
        const char *source;
        uint32_t number;
        size_t place;
    } cases[] = {
        {"(;\xC3)", SGF_NOT_UTF8, 2},
        {"(;B)", SGF_MISSING_PROPERTY_IDENTIFIER, 2},
        {"(;B\xC3\xA9[])", SGF_UNEXPECTED_END_OF_PROPERTY_IDENTIFIER, 2},
        {"(;A[x][y", SGF_UNEXPECTED_END_OF_PROPERTY_VALUE, 2},
        {")", SGF_UNEXPECTED_GAME_TREE_END, 0},
        {"(;", SGF_UNEXPECTED_END_OF_DATA, 0},
        {"", SGF_NO_GAME_TREES, 0},
        {"((;))", SGF_UNEXPECTED_GAME_TREE_START, 0},
        {"(B[aa])", SGF_UNEXPECTED_PROPERTY, 0},
        {"(;GM[x])", SGF_INVALID_GAME_TYPE, 0},
    };
    for (size_t i = 0; i < sizeof cases / sizeof *cases; i++) {
        SgfReading r = read_text(cases[i].source, sgf_read_strict, 0);
        CHECK(r.number == cases[i].number && r.place == cases[i].place && has(r.counts, 0, 0, 0, 0));
    }
    memset(text, ' ', sizeof text);
    CHECK(read_bytes(SGF_TEXT_LIMIT, sgf_read_strict, 0).number == SGF_NO_GAME_TREES);
    CHECK(read_bytes(SGF_TEXT_LIMIT + 1, sgf_read_strict, 0).number == SGF_TEXT_TOO_LONG);
    memset(text, '(', SGF_DEPTH_LIMIT + 1);
    CHECK(read_bytes(SGF_DEPTH_LIMIT, sgf_read_lenient, 0).number == SGF_ACCEPTED);
    CHECK(read_bytes(SGF_DEPTH_LIMIT + 1, sgf_read_lenient, 0).number == SGF_TOO_DEEP);
}

static void check_record(void) {
    uint8_t out[64];
    read_text("(;C[a\tb\nc]GM[1][x];AB[ZZ][ba];HA[+12];B[cZ];W[])", sgf_read_lenient, 0);
    CHECK(sgf_fits(RECORD) == SGF_ACCEPTED);
    SgfSpan span = sgf_value(RECORD, 1);
    CHECK(span.number == SGF_ACCEPTED && span.reserved == 0 && span.from == 13 && span.to == 14);
    CHECK(sgf_value(RECORD, 8).number == SGF_NO_SUCH_NUMBER && sgf_value(RECORD, 8).to == 0);
    SgfDisplay shown = sgf_display(RECORD, 0, SGF_TEXT, out, sizeof out);
    CHECK(shown.number == 0 && shown.reserved == 0 && shown.length == 5 && memcmp(out, "a b\nc", 5) == 0);
    CHECK(sgf_display(RECORD, 0, SGF_SIMPLE_TEXT, out, 5).length == 5 && memcmp(out, "a b c", 5) == 0);
    CHECK(sgf_display(RECORD, 0, SGF_TEXT, out, 4).number == SGF_NO_ROOM && sgf_display(RECORD, 0, 0, out, 4).length == 0);
    const uint8_t *raw = (const uint8_t *)"a\tb\nc\\]";
    shown = sgf_display_value(SGF_TEXT, raw, 7, out, 6);
    CHECK(shown.number == 0 && shown.reserved == 0 && shown.length == 6 && memcmp(out, "a b\nc]", 6) == 0);
    CHECK(sgf_display_value(SGF_SIMPLE_TEXT, raw, 7, out, 7).length == 6 && memcmp(out, "a b c]", 6) == 0);
    CHECK(sgf_display_value(7, raw, 7, out, 7).length == 6 && memcmp(out, "a b c]", 6) == 0);
    shown = sgf_display_value(SGF_TEXT, raw, 7, out, 5);
    CHECK(shown.number == SGF_NO_ROOM && shown.length == 0 && memcmp(out, "a b c]", 6) == 0);
    CHECK(sgf_display_value(SGF_TEXT, NULL, 0, NULL, 0).number == 0);
    SgfGoValue go = sgf_go_value(RECORD, 2);
    CHECK(go.number == 0 && go.kind == SGF_POINTS && go.x == 0 && go.y == 0 && go.handicap == 0);
    size_t marked = 0;
    for (size_t i = 0; i < SGF_POINT_PLACES; i++) {
        marked += go.marks[i];
    }
    CHECK(marked == 2 && go.marks[SGF_POINT_PLACE(51, 51)] && go.marks[SGF_POINT_PLACE(1, 0)]);
    CHECK(sgf_go_value(RECORD, 3).kind == SGF_HANDICAP && sgf_go_value(RECORD, 3).handicap == 12);
    go = sgf_go_value(RECORD, 4);
    CHECK(go.kind == SGF_MOVE && go.x == 2 && go.y == 51);
    CHECK(sgf_go_value(RECORD, 5).kind == SGF_PASS && sgf_go_value(RECORD, 0).kind == SGF_OTHER);
    CHECK(sgf_go_value(RECORD, 6).number == SGF_NO_SUCH_NUMBER);
    CHECK(sgf_go_by_rule(SGF_RULE_GO, (const uint8_t *)"HA", 2, text, used, values, 2 * ROWS, 0, 1).kind == SGF_INVALID);
    CHECK(sgf_go_by_rule(SGF_RULE_UNKNOWN, (const uint8_t *)"B", 1, text, used, values, 2 * ROWS, 6, 1).kind == SGF_OTHER);
    counts.nodes--;
    CHECK(sgf_fits(RECORD) == SGF_NOT_FITTING && sgf_value(RECORD, 0).number == SGF_NOT_FITTING);
}

#define TREE_SIZE(t) sgf_tree_size(text, used, TABLES, t)

/* Every field of a size, kinds and rules; `tt` by them. */
static void check_sizes(void) {
    read_text("(;SZ[9:13]B[tt])(;SZ[20]B[tt])(;B[tt])(;SZ[9][9]B[tt])(;GM[2]SZ[7]B[tt])", sgf_read_strict, 0);
    SgfSize s = sgf_size(RECORD, 0);
    CHECK(s.number == 0 && s.kind == SGF_SIZE_SIZED && s.columns == 9 && s.rows == 13 && s.rule == SGF_RULE_GO);
    s = sgf_size(RECORD, 1);
    CHECK(s.kind == SGF_SIZE_SIZED && s.columns == 20 && s.rows == 20 && s.rule == SGF_RULE_GO_LARGE);
    s = sgf_size(RECORD, 2);
    CHECK(s.kind == SGF_SIZE_ABSENT && s.columns == 19 && s.rows == 19 && s.rule == SGF_RULE_GO);
    s = sgf_size(RECORD, 3);
    CHECK(s.kind == SGF_SIZE_WRONG && s.columns == 0 && s.rows == 0 && s.rule == SGF_RULE_GO_LARGE);
    s = sgf_size(RECORD, 4);
    CHECK(s.kind == SGF_SIZE_SIZED && s.columns == 7 && s.rows == 7 && s.rule == SGF_RULE_UNKNOWN);
    s = sgf_size(RECORD, 5);
    CHECK(s.number == SGF_NO_SUCH_NUMBER && s.kind == 0 && s.columns == 0 && s.rows == 0 && s.rule == 0);
    for (size_t t = 0; t < 5; t++) {
        SgfSize a = sgf_size(RECORD, t), b = TREE_SIZE(t);
        CHECK(memcmp(&a, &b, sizeof a) == 0);
    }
    s = TREE_SIZE((size_t)-1);
    CHECK(s.number == 0 && s.kind == SGF_SIZE_ABSENT && s.columns == 19 && s.rows == 19 && s.rule == SGF_RULE_GO);
    CHECK(sgf_go_value(RECORD, 1).kind == SGF_PASS && sgf_go_value(RECORD, 3).kind == SGF_MOVE);
    CHECK(sgf_go_value(RECORD, 3).x == 19 && sgf_go_value(RECORD, 3).y == 19 && sgf_go_value(RECORD, 4).kind == SGF_PASS);
    CHECK(sgf_go_value(RECORD, 6).kind == SGF_MOVE && sgf_go_value(RECORD, 9).kind == SGF_OTHER);
    const uint8_t *b = (const uint8_t *)"B";
    CHECK(sgf_go_by_rule(SGF_RULE_GO, b, 1, text, used, values, 2 * ROWS, 1, 1).kind == SGF_PASS);
    CHECK(sgf_go_by_rule(SGF_RULE_GO_LARGE, b, 1, text, used, values, 2 * ROWS, 1, 1).kind == SGF_MOVE);
    CHECK(sgf_go_by_rule(SGF_RULE_UNKNOWN, b, 1, text, used, values, 2 * ROWS, 1, 1).kind == SGF_OTHER);
    CHECK(sgf_go_by_rule(3, b, 1, text, used, values, 2 * ROWS, 1, 1).kind == SGF_OTHER);
    counts.nodes--;
    CHECK(sgf_size(RECORD, 0).number == SGF_NOT_FITTING && sgf_size(RECORD, 0).columns == 0);
}

/* Every field of a tally and of a line, and tags of known bytes. */
static void check_season(void) {
    uint8_t out[80];
    read_text("(;B[aa];W[bb](;B[tt])(;W[cc];W[dd][ee]))(;SZ[20]W[tt])(;GM[2]B[aa])", sgf_read_strict, 0);
    SgfTally t = sgf_tally(RECORD);
    CHECK(t.number == 0 && t.reserved == 0 && t.trees == 3 && t.nodes == 7 && t.black == 1 && t.white == 3 && t.passes == 1);
    memset(out, 7, sizeof out);
    SgfLine l = sgf_line(RECORD, out, sizeof out);
    CHECK(l.number == 0 && l.reserved == 0 && l.length == 65 && l.trees == 3 && l.nodes == 7 && l.black == 1 && l.white == 3 && l.passes == 1);
    CHECK(memcmp(out, "(;B[aa];W[bb](;B[])(;W[cc];W[dd][ee]))(;SZ[20]W[tt])(;GM[2]B[aa])\7", 66) == 0 && l.tag == sgf_tag(out, 65));
    l = sgf_line(RECORD, out, 64);
    CHECK(l.number == SGF_NO_ROOM && l.reserved == 0 && (l.length | l.trees | l.nodes | l.black | l.white | l.passes) == 0 && l.tag == 0);
    counts.nodes--;
    CHECK(sgf_line(RECORD, out, sizeof out).number == SGF_NOT_FITTING && sgf_line(RECORD, out, sizeof out).tag == 0);
    t = sgf_tally(RECORD);
    CHECK(t.number == SGF_NOT_FITTING && t.reserved == 0 && (t.trees | t.nodes | t.black | t.white | t.passes) == 0);
    CHECK(sgf_tag(NULL, 0) == UINT64_C(0xcbf29ce484222325) && sgf_tag((const uint8_t *)"a", 1) == UINT64_C(0xaf63dc4c8601ec8c));
    CHECK(sgf_tag((const uint8_t *)"(;)", 3) == UINT64_C(0x09b11117f68c37b7));
}

static void check_writing(void) {
    uint8_t out[64];
    read_text("(;AB[ba][aa])", sgf_read_strict, 0);
    SgfWriting writing = sgf_write(RECORD, out, sizeof out);
    CHECK(writing.number == 0 && writing.reserved == 0 && writing.length == 13 && memcmp(out, "(;AB[aa][ba])", 13) == 0);
    CHECK(sgf_write(RECORD, out, 12).number == SGF_NO_ROOM && sgf_write(RECORD, out, 12).length == 0);
    writing = sgf_write_length(RECORD);
    CHECK(writing.number == 0 && writing.reserved == 0 && writing.length == 13);
    read_text("(;[x])", sgf_read_strict, 0);
    CHECK(sgf_write(RECORD, out, sizeof out).number == SGF_EMPTY_IDENTIFIER);
    CHECK(sgf_write_length(RECORD).number == SGF_EMPTY_IDENTIFIER && sgf_write_length(RECORD).length == 0);
    counts.nodes--;
    CHECK(sgf_write_length(RECORD).number == SGF_NOT_FITTING && sgf_write_length(RECORD).length == 0);
}

static void check_edit(void) {
    read_text("(;C[ab](;B[cd])(;GM[2][]))(;)", sgf_read_strict, 0);
    SgfEdit e = edit(0, "x");
    CHECK(e.number == SGF_ACCEPTED && e.reserved == 0 && e.place == 0 && e.used == 28);
    CHECK(has(e.counts, 2, 4, 3, 4));
    CHECK(memcmp(text, "(;C[x](;B[cd])(;GM[2][]))(;)\0", 29) == 0 && values[2] == 10 && values[3] == 12);
    used = e.used;
    CHECK(edit(4, "").number == SGF_NO_SUCH_NUMBER && edit(2, "").number == SGF_GAME_TYPE_FIXED);
    CHECK(edit(0, "ab\xFF").number == SGF_NOT_UTF8 && edit(0, "ab\xFF").place == 2 && edit(0, "\xFF").used == 0);
    CHECK(edit(0, "]").number == SGF_NOT_CLOSED && has(edit(0, "\\").counts, 0, 0, 0, 0));
    CHECK(sgf_edit(text, used, used, counts, TABLES, 0, (const uint8_t *)"xy", 2).number == SGF_NO_ROOM);
    counts.trees = 1;
    CHECK(edit(0, "").number == SGF_NOT_FITTING);
}

static void check_feed(void) {
    read_text("(;C[ab];B[cd])", sgf_read_strict, 0);
    uint8_t feed[16];
    SgfWriting w = sgf_feed_begin(2, feed, sizeof feed);
    CHECK(w.number == 0 && w.reserved == 0 && w.length == 1);
    CHECK(sgf_feed_add(0, (const uint8_t *)"xyz", 3, feed + 1, 4).number == SGF_NO_ROOM);
    CHECK(sgf_feed_add(268435456, feed, 0, feed + 1, 15).number == SGF_MALFORMED_FEED);
    CHECK(sgf_feed_add(0, (const uint8_t *)"xyz", 3, feed + 1, 15).length == 5 && sgf_feed_add(1, feed, 0, feed + 6, 10).length == 2);
    CHECK(memcmp(feed, "\2\0\3xyz\1\0", 8) == 0);
    SgfCheck c = sgf_feed_check(RECORD, feed, 8);
    CHECK(c.number == 0 && c.reserved == 0 && c.place == 0);
    SgfPart p = sgf_corrected(RECORD, feed, 8, 0);
    CHECK(p.number == 0 && p.source == SGF_FROM_FEED && p.place == 0 && p.from == 3 && p.to == 6);
    p = sgf_feed_find(feed, 8, 2);
    CHECK(p.number == 0 && p.source == SGF_FROM_RECORD && p.from == 0 && p.to == 0);
    CHECK(sgf_corrected(RECORD, feed, 8, 2).number == SGF_NO_SUCH_NUMBER && sgf_corrected(RECORD, feed, 7, 0).number == SGF_MALFORMED_FEED);
    SgfEdit e = sgf_correct(RECORD, feed, 7);
    CHECK(e.number == SGF_MALFORMED_FEED && e.used == 0);
    e = sgf_correct(RECORD, feed, 8);
    CHECK(e.number == 0 && e.reserved == 0 && e.place == 0 && e.used == 13 && has(e.counts, 1, 2, 2, 2));
    CHECK(memcmp(text, "(;C[xyz];B[])\0", 14) == 0 && values[0] == 4 && values[1] == 7 && values[2] == 11 && values[3] == 11);
}

/* The explanation of a text, strict or lenient. */
typedef struct {
    bool lenient;
    const char *source;
    uint32_t number, fact;
    size_t place, detail;
} Told;

static const Told told[] = {
    {false, "(a[])", 11, SGF_WHY_STRAY, 1, 0},
    {false, "(;B\xE3\x80\x80", 3, SGF_WHY_NO_BRACKET, 2, 3},
    {false, "(;B\xE3\x80\x80x", 4, SGF_WHY_FOREIGN, 2, 3},
    {false, "(;A[x][y", 5, SGF_WHY_NOT_CLOSED, 2, 8},
    {false, ";(;", 7, SGF_WHY_STAYS_OPEN, 0, 1},
    {false, "(;)(((;)", 7, SGF_WHY_STAYS_OPEN, 3, 2},
    {false, "()", 7, SGF_WHY_NO_NODE, 0, 0},
    {false, "(;)()", 7, SGF_WHY_NO_NODE, 3, 1},
    {false, "((;))", 10, SGF_WHY_EMPTY_LIST, 1, SGF_NONE},
    {false, "(;((;)))", 10, SGF_WHY_EMPTY_LIST, 3, 0},
    {false, "(;)(;((;)))", 10, SGF_WHY_EMPTY_LIST, 6, 1},
    {false, "(;GM[1]GM[x])", 11, SGF_WHY_SECOND_GM, 7, 0},
    {false, "(;GM[1][2])", 12, SGF_WHY_GM_VALUES, 2, 2},
    {false, "(;GM[x])", 12, SGF_WHY_GM_NUMBER, 2, 0},
    {false, "(;GM[2147483648])", 12, SGF_WHY_GM_NUMBER, 2, 0},
    {false, "((GM[x]))", 12, SGF_WHY_GM_NUMBER, 2, 0},
    {false, "", 8, SGF_WHY_NO_END, 0, 0},
    {false, " ;", 8, SGF_WHY_NO_END, 0, 0},
    {false, "(;))", 6, SGF_WHY_END_BEYOND, 3, 0},
    {false, "(\xFF", 2, SGF_WHY_BAD_SEQUENCE, 1, 0},
    {false, "(;AbC[])", 0, SGF_WHY_ACCEPTED, 8, 0},
    {false, " (;) ", 0, SGF_WHY_ACCEPTED, 5, 0},
    {false, "(;);", 0, SGF_WHY_ACCEPTED, 3, 0},
    {true, "", 0, SGF_WHY_ACCEPTED, 0, 0},
    {true, ";", 0, SGF_WHY_ACCEPTED, 0, 0},
    {true, "(;);)", 0, SGF_WHY_ACCEPTED, 3, 0},
    {true, "(;)x", 0, SGF_WHY_ACCEPTED, 3, 0},
    {true, "(;B[", 0, SGF_WHY_ACCEPTED, 2, 0},
    {true, "(;)\xFF", 2, SGF_WHY_BAD_SEQUENCE, 3, 0},
};

static void check_why(void) {
    for (size_t i = 0; i < sizeof told / sizeof *told; i++) {
        const Told *t = told + i;
        const uint8_t *source = (const uint8_t *)t->source;
        size_t length = strlen(t->source);
        SgfWhy w = (t->lenient ? sgf_why_lenient : sgf_why_strict)(source, length);
        SgfReading r = read_text(t->source, t->lenient ? sgf_read_lenient : sgf_read_strict, 0);
        SgfReading c = (t->lenient ? sgf_count_lenient : sgf_count_strict)(source, length);
        CHECK(w.number == t->number && w.fact == t->fact && w.place == t->place && w.detail == t->detail);
        CHECK(w.number == r.number && memcmp(&w.counts, &r.counts, sizeof r.counts) == 0);
        CHECK(memcmp(&c, &r, sizeof r) == 0);
    }
    for (size_t i = 0; i < 1025; i++) {
        memcpy(text + 2 * i, "(;", 2);
        text[2050 + i] = ')';
    }
    SgfWhy w = sgf_why_strict(text, 3075);
    CHECK(w.number == 9 && w.fact == SGF_WHY_TOO_DEEP && w.place == 2048 && w.detail == 0);
    w = sgf_why_lenient(text, 2050);
    CHECK(w.number == 9 && w.fact == SGF_WHY_TOO_DEEP && w.place == 2048);
    w = sgf_why_strict(text, SGF_TEXT_LIMIT + 1);
    CHECK(w.number == 1 && w.fact == SGF_WHY_LENGTH && w.place == 0 && w.detail == SGF_TEXT_LIMIT + 1);
}

/* Salvage: a text, its result, and each change as kind, number and place; at most three. */
typedef struct {
    const char *source, *result;
    size_t changes;
    uint32_t list[3][SGF_CHANGE_STRIDE];
} Saved;

static const Saved saved[] = {
    {"(;GaM[2]B[aa])", "(;GM[2]B[aa])", 1, {{SGF_SPELLED_ANEW, 0, 0}}},
    {";;GM[2](;)", "(;;GM[2];)", 0, {{0}}},
    {"(A[]GM[2])", "(;)", 2, {{SGF_EMPTY_ROOT, 0, 0}, {SGF_TREE_CUT, 0, 1}}},
    {"(;GM[1]GaM[2])", "(;)", 2, {{SGF_GM_REMOVED, 0, 0}, {SGF_GM_REMOVED, 1, 0}}},
    {"(;[x]b[aa](;A[y", "(;;)", 3, {{SGF_NAMELESS_REMOVED, 0, 0}, {SGF_NAMELESS_REMOVED, 1, 0}, {SGF_TAIL_DROPPED, 0, 12}}},
    {"(;)(;((;)))", "(;)(;)", 1, {{SGF_TREE_CUT, 1, 6}}},
    {"(;B[aa])", "(;B[aa])", 0, {{0}}},
    {"", "(;)", 1, {{SGF_EMPTY_ROOT, 0, 0}}},
};

static void check_salvage(void) {
    static uint8_t out[SGF_TEXT_LIMIT];
    static uint32_t list[SGF_CHANGE_STRIDE * ROWS];
    for (size_t i = 0; i < sizeof saved / sizeof *saved; i++) {
        const Saved *t = saved + i;
        const uint8_t *source = (const uint8_t *)t->source;
        size_t length = strlen(t->source), result = strlen(t->result), numbers = SGF_CHANGE_STRIDE * t->changes;
        SgfReading r = read_text(t->source, sgf_read_lenient, 0);
        memset(out, 7, sizeof out);
        memset(list, 7, sizeof list);
        SgfSalvage s = sgf_salvage(source, length, TABLES, list, numbers, out, result);
        CHECK(s.number == 0 && s.reserved == 0 && s.place == 0 && s.length == result && s.changes == t->changes);
        CHECK(memcmp(&s.counts, &r.counts, sizeof r.counts) == 0 && memcmp(out, t->result, result) == 0 && out[result] == 7);
        CHECK(memcmp(list, t->list, 4 * numbers) == 0 && list[numbers] == 0x07070707);
        CHECK(sgf_read_strict(out, result, 0, TABLES).number == 0);
        /* a byte or a row too few: nothing that is lent changes */
        memset(out, 7, sizeof out);
        memset(list, 7, sizeof list);
        trees[0] = 9;
        s = sgf_salvage(source, length, TABLES, list, numbers, out, result - 1);
        CHECK(s.number == 14 && s.length == 0 && s.changes == 0 && has(s.counts, 0, 0, 0, 0) && out[0] == 7 && list[0] == 0x07070707 && trees[0] == 9);
        if (numbers > 0) {
            s = sgf_salvage(source, length, TABLES, list, numbers - 1, out, result);
            CHECK(s.number == 14 && out[0] == 7 && list[0] == 0x07070707);
        }
        /* no row of a table: nothing changes */
        trees[0] = 9;
        s = sgf_salvage(source, length, trees, 1, nodes, 4, properties, 4, values, 2, list, numbers, out, result);
        CHECK(s.number == 14 && trees[0] == 9 && out[0] == 7);
    }
    SgfSalvage s = sgf_salvage((const uint8_t *)"(;C[\xFF", 5, TABLES, list, 3, out, 9);
    CHECK(s.number == 2 && s.place == 4);
    /* of the result: 9, of one open tree more than the text has; before 14, of the tables too, and 1 before it */
    memcpy(text, "(;", 2);
    for (size_t i = 0; i < 1024; i++) {
        memcpy(text + 2 + 4 * i, "(;);", 4);
    }
    text[4098] = ')';
    CHECK(sgf_salvage(text, 4099, TABLES, list, 0, out, 0).number == 9);
    CHECK(sgf_salvage(text, 4099, trees, 0, nodes, 0, properties, 0, values, 0, list, 0, out, 0).number == 9);
    memcpy(text, "(;SZ[52]", 8);
    for (size_t i = 0; i < 97; i++) {
        memcpy(text + 8 + 9 * i, "AB[aa:ZZ]", 9);
    }
    text[881] = ')';
    CHECK(sgf_salvage(text, 882, TABLES, list, 0, out, 0).number == 1);
    CHECK(sgf_salvage(text, 882, trees, 0, nodes, 0, properties, 0, values, 0, list, 0, out, 0).number == 1);
    CHECK(sgf_salvage(text, 881 - 9, TABLES, list, 0, out, 0).number == 14);
    CHECK(sgf_salvage(text, 881 - 9, TABLES, list, 0, out, sizeof out).number == 0);
    CHECK(sgf_salvage(text, SGF_TEXT_LIMIT + 1, TABLES, list, 0, out, 0).number == 1);
}

int main(void) {
    check_version();
    check_tokens();
    check_reading();
    check_refused_readings();
    check_record();
    check_sizes();
    check_season();
    check_writing();
    check_edit();
    check_feed();
    check_why();
    check_salvage();
    printf("layout: %d checks, %d failures\n", checks, failures);
    return failures != 0;
}
