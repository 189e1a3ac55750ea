/* FF[4]'s property index and its simple values: every identifier of one and two letters, one value of each kind and each
 * way in which it can be wrong, the limits of a Number, and each number that a record gives. Prints what does not hold,
 * and how many checks there were. */
#include "sgf.h"

#include <stdio.h>
#include <string.h>

static int checks, failures;

#define CHECK(holds) \
    do { \
        checks++; \
        if (!(holds)) { \
            failures++; \
            printf("line %d: %s\n", __LINE__, #holds); \
        } \
    } while (0)

static SgfEntry entry(const char *identifier) { return sgf_entry((const uint8_t *)identifier, strlen(identifier)); }

static bool is(SgfEntry e, uint32_t kind, uint32_t type, uint32_t section) {
    return e.kind == kind && e.type == type && e.section == section && e.reserved == 0;
}

static uint32_t named(const char *identifier, const char *name) {
    return sgf_is_named((const uint8_t *)identifier, strlen(identifier), (const uint8_t *)name, strlen(name));
}

/* An identifier is its uppercase letters: those, all of them, in their order. */
static void check_names(void) {
    CHECK(named("GM", "GM") == 1 && named("GaMe", "GM") == 1 && named("C ", "C") == 1 && named("cB;o", "B") == 1);
    CHECK(named("G", "GM") == 0 && named("GMx", "G") == 0 && named("MG", "GM") == 0 && named("gm", "GM") == 0);
    CHECK(named("", "") == 1 && named("gm", "") == 1 && named("C", "") == 0 && named("", "C") == 0);
    CHECK(named("Gm", "Gm") == 0 && named("gm", "gm") == 0 && named("A\xC3\x81", "A") == 1 && named("[", "[") == 0);
    CHECK(sgf_is_named(NULL, 0, NULL, 0) == 1);
}

/* 67 identifiers are listed, 63 of them outside Go's section; what is not listed has no part. */
static void check_entries(void) {
    int listed = 0, go = 0;
    for (int a = 'A' - 1; a <= 'Z'; a++) {
        for (int b = 'A'; b <= 'Z'; b++) {
            char identifier[3] = {(char)(a < 'A' ? b : a), (char)(a < 'A' ? 0 : b), 0};
            SgfEntry e = entry(identifier);
            CHECK((e.kind == 0) == (e.section == 0) && e.kind <= SGF_KIND_FIGURE && e.type <= SGF_TYPE_INHERIT && e.section <= SGF_SECTION_GO);
            listed += e.section != 0;
            go += e.section == SGF_SECTION_GO;
        }
    }
    CHECK(listed == 67 && go == 4);
    CHECK(is(entry("B"), SGF_KIND_MOVE, SGF_TYPE_MOVE, SGF_SECTION_MOVE));
    CHECK(is(entry("AB"), SGF_KIND_STONES, SGF_TYPE_SETUP, SGF_SECTION_SETUP));
    CHECK(is(entry("C"), SGF_KIND_TEXT, SGF_TYPE_NONE, SGF_SECTION_NODE_ANNOTATION));
    CHECK(is(entry("KO"), SGF_KIND_NONE, SGF_TYPE_MOVE, SGF_SECTION_MOVE));
    CHECK(is(entry("BM"), SGF_KIND_DOUBLE, SGF_TYPE_MOVE, SGF_SECTION_MOVE_ANNOTATION));
    CHECK(is(entry("LB"), SGF_KIND_LABELS, SGF_TYPE_NONE, SGF_SECTION_MARKUP));
    CHECK(is(entry("AR"), SGF_KIND_POINT_PAIRS, SGF_TYPE_NONE, SGF_SECTION_MARKUP));
    CHECK(is(entry("DD"), SGF_KIND_POINTS_OR_NONE, SGF_TYPE_INHERIT, SGF_SECTION_MARKUP));
    CHECK(is(entry("SQ"), SGF_KIND_POINTS, SGF_TYPE_NONE, SGF_SECTION_MARKUP));
    CHECK(is(entry("SZ"), SGF_KIND_BOARD_SIZE, SGF_TYPE_ROOT, SGF_SECTION_ROOT));
    CHECK(is(entry("AP"), SGF_KIND_TEXT_PAIR, SGF_TYPE_ROOT, SGF_SECTION_ROOT));
    CHECK(is(entry("PB"), SGF_KIND_SIMPLETEXT, SGF_TYPE_GAME_INFO, SGF_SECTION_GAME_INFO));
    CHECK(is(entry("ON"), SGF_KIND_TEXT, SGF_TYPE_GAME_INFO, SGF_SECTION_GAME_INFO));
    CHECK(is(entry("BL"), SGF_KIND_REAL, SGF_TYPE_MOVE, SGF_SECTION_TIMING));
    CHECK(is(entry("FG"), SGF_KIND_FIGURE, SGF_TYPE_NONE, SGF_SECTION_MISCELLANEOUS));
    CHECK(is(entry("PL"), SGF_KIND_COLOR, SGF_TYPE_SETUP, SGF_SECTION_SETUP));
    CHECK(is(entry("HA"), SGF_KIND_NUMBER, SGF_TYPE_GAME_INFO, SGF_SECTION_GO));
    CHECK(is(entry("Comment"), SGF_KIND_TEXT, SGF_TYPE_NONE, SGF_SECTION_NODE_ANNOTATION));
    CHECK(is(entry("cB;o"), SGF_KIND_MOVE, SGF_TYPE_MOVE, SGF_SECTION_MOVE));
    CHECK(is(entry(""), 0, 0, 0) && is(entry("ABC"), 0, 0, 0) && is(entry("ab"), 0, 0, 0) && is(entry("AS"), 0, 0, 0));
}

/* A text of one value, and what it is as the only value of a property. */
static SgfSimple simple(uint32_t rule, const char *identifier, const char *value) {
    uint32_t values[2] = {0, (uint32_t)strlen(value)};
    return sgf_simple_property(rule, (const uint8_t *)identifier, strlen(identifier), (const uint8_t *)value, strlen(value), values, 2, 0, 1);
}

static bool gives(SgfSimple s, uint32_t kind, uint32_t negative, uint64_t size) {
    return s.number == 0 && s.reserved == 0 && s.kind == kind && s.negative == negative && s.size == size;
}

static void check_values(void) {
    CHECK(gives(simple(0, "KO", ""), SGF_SIMPLE_NONE, 0, 0));
    CHECK(gives(simple(0, "KO", "x"), SGF_SIMPLE_INVALID, 0, 0));
    CHECK(gives(simple(0, "TE", "1"), SGF_SIMPLE_DOUBLE, 0, 1));
    CHECK(gives(simple(0, "TE", "\\2"), SGF_SIMPLE_DOUBLE, 0, 2));
    CHECK(gives(simple(0, "TE", "3"), SGF_SIMPLE_INVALID, 0, 0));
    CHECK(gives(simple(0, "TE", "11"), SGF_SIMPLE_INVALID, 0, 0));
    CHECK(gives(simple(0, "TE", ""), SGF_SIMPLE_INVALID, 0, 0));
    CHECK(gives(simple(1, "PL", "B"), SGF_SIMPLE_COLOR, 0, 1));
    CHECK(gives(simple(1, "PL", "W"), SGF_SIMPLE_COLOR, 0, 2));
    CHECK(gives(simple(1, "PL", "b"), SGF_SIMPLE_INVALID, 0, 0));
    CHECK(gives(simple(0, "MN", "+012"), SGF_SIMPLE_NUMBER, 0, 12));
    CHECK(gives(simple(0, "MN", "-7"), SGF_SIMPLE_NUMBER, 1, 7));
    CHECK(gives(simple(0, "MN", "1 "), SGF_SIMPLE_INVALID, 0, 0));
    CHECK(gives(simple(0, "FF", "9"), SGF_SIMPLE_NUMBER, 0, 9));
    CHECK(SGF_INT64(simple(0, "MN", "9223372036854775807")) == INT64_MAX);
    CHECK(SGF_INT64(simple(0, "MN", "-9223372036854775808")) == INT64_MIN);
    CHECK(SGF_INT64(simple(0, "MN", "-0")) == 0 && SGF_INT64(simple(0, "MN", "-1")) == -1 && SGF_INT64(simple(0, "MN", "5")) == 5);
    CHECK(gives(simple(0, "MN", "9223372036854775808"), SGF_SIMPLE_INVALID, 0, 0));
    CHECK(gives(simple(0, "MN", "-9223372036854775809"), SGF_SIMPLE_INVALID, 0, 0));
    CHECK(gives(simple(0, "HA", "1"), SGF_SIMPLE_NUMBER, 0, 1) && gives(simple(2, "HA", "1"), SGF_SIMPLE_NUMBER, 0, 1));
    CHECK(gives(simple(1, "HA", "1"), SGF_SIMPLE_OTHER, 0, 0) && gives(simple(3, "HA", "1"), SGF_SIMPLE_OTHER, 0, 0));
    CHECK(gives(simple(0, "B", "aa"), SGF_SIMPLE_OTHER, 0, 0) && gives(simple(0, "SZ", "9"), SGF_SIMPLE_OTHER, 0, 0));
    CHECK(gives(simple(0, "KM", "6"), SGF_SIMPLE_OTHER, 0, 0) && gives(simple(0, "XX", "1"), SGF_SIMPLE_OTHER, 0, 0));
    /* not exactly one value */
    const uint8_t *one = (const uint8_t *)"1";
    static const uint32_t rows[4] = {0, 1, 0, 1};
    CHECK(gives(sgf_simple_property(0, (const uint8_t *)"TE", 2, one, 1, rows, 4, 0, 2), SGF_SIMPLE_INVALID, 0, 0));
    CHECK(gives(sgf_simple_property(0, (const uint8_t *)"TE", 2, one, 1, rows, 4, 0, 0), SGF_SIMPLE_INVALID, 0, 0));
    CHECK(gives(sgf_simple_property(0, (const uint8_t *)"C", 1, one, 1, rows, 4, 0, 2), SGF_SIMPLE_OTHER, 0, 0));
    CHECK(gives(sgf_simple_property(0, (const uint8_t *)"KO", 2, one, 1, rows, 4, 9, 1), SGF_SIMPLE_NONE, 0, 0));
}

/* By number, in the tree that has the property: HA is read in the first of two trees. */
static void check_record(void) {
    const char *source = "(;GM[1]HA[3]PL[W];KO[]KO[][])(;GM[2]HA[3];MN[-4])";
    static uint32_t trees[2 * 8], nodes[SGF_NODE_STRIDE * 8], properties[4 * 16], values[2 * 16];
    size_t used = strlen(source);
    SgfReading r = sgf_read_strict((const uint8_t *)source, used, 0, trees, 16, nodes, SGF_NODE_STRIDE * 8, properties, 64, values, 32);
    CHECK(r.number == 0 && r.counts.properties == 8);
#define RECORD (const uint8_t *)source, used, used, r.counts, trees, 16, nodes, SGF_NODE_STRIDE * 8, properties, 64, values, 32
    CHECK(gives(sgf_simple_value(RECORD, 0), SGF_SIMPLE_NUMBER, 0, 1));
    CHECK(gives(sgf_simple_value(RECORD, 1), SGF_SIMPLE_NUMBER, 0, 3));
    CHECK(gives(sgf_simple_value(RECORD, 2), SGF_SIMPLE_COLOR, 0, 2));
    CHECK(gives(sgf_simple_value(RECORD, 3), SGF_SIMPLE_NONE, 0, 0));
    CHECK(gives(sgf_simple_value(RECORD, 4), SGF_SIMPLE_INVALID, 0, 0));
    CHECK(gives(sgf_simple_value(RECORD, 5), SGF_SIMPLE_NUMBER, 0, 2));
    CHECK(gives(sgf_simple_value(RECORD, 6), SGF_SIMPLE_OTHER, 0, 0));
    CHECK(gives(sgf_simple_value(RECORD, 7), SGF_SIMPLE_NUMBER, 1, 4));
    SgfSimple behind = sgf_simple_value(RECORD, 8);
    CHECK(behind.number == SGF_NO_SUCH_NUMBER && behind.kind == 0 && behind.negative == 0 && behind.size == 0);
    nodes[0] = 7;
    SgfSimple unfit = sgf_simple_value(RECORD, 0);
    CHECK(unfit.number == SGF_NOT_FITTING && unfit.kind == 0 && unfit.negative == 0 && unfit.size == 0);
}

int main(void) {
    check_names();
    check_entries();
    check_values();
    check_record();
    printf("index: %d checks, %d failures\n", checks, failures);
    return failures != 0;
}
