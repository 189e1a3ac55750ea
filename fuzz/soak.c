/* A soak of the C interface: random runs of readings, damage, edits and all other calls over one lent record.
 *
 *   cc -O2 -Iinclude fuzz/soak.c target/lib/libsgf.a -o soak && ./soak 1000000
 *
 * It is a libFuzzer target too, which fuzz/run builds and runs: an input is a text, then FF 00, then draws.
 *
 * Every lent array stands between fences (lent.h). After each call what it may not write is as it was, a refusal has
 * written nothing and its number is one that the call may give; tables of a reading fit; after an accepted edit of a
 * strict reading the tables are those of a fresh one, and so is the board at a node; the board at a node is the one along
 * its line, node by node, and its sums are right; a session of edits is undone and redone, step by step, to the same
 * used bytes and the same tables; a writing reads back, and is written again as the same bytes; a line is what writing,
 * tally and tag say; a salvage that is accepted leaves the lenient reading in its tables, its result reads strictly, and
 * is salvaged again as the same bytes with an empty list. The process holds no more memory at the end than after a tenth
 * of them. */
#define _GNU_SOURCE
#include "lent.h"
#include "sgf.h"

#include <stdio.h>
#include <sys/resource.h>

enum { TEXT = 4096, OUT = 16384, NEW = 512, FEED = 2048, ROOM = 250, TABLES = 4 };
static const size_t strides[TABLES] = {SGF_TREE_STRIDE, SGF_NODE_STRIDE, SGF_PROPERTY_STRIDE, SGF_VALUE_STRIDE};

/* The lent arrays. The tables are lent in whole numbers of four bytes. */
enum { TREES, NODES, PROPERTIES, VALUES, TEXTS, OUTS, NEWS, LISTS, LENT };
static Lent lent[LENT];
#define BYTES(l) lent[l].at, lent[l].length
#define TABLE(l) ((uint32_t *)(void *)lent[l].at)
#define NUMBERS(l) TABLE(l), lent[l].length / 4
#define LENT_TABLES NUMBERS(TREES), NUMBERS(NODES), NUMBERS(PROPERTIES), NUMBERS(VALUES)
#define RECORD BYTES(TEXTS), used, counts, LENT_TABLES

/* The record: used bytes and rows; whether it is a strict reading that was only edited since, whether its identifiers
 * are uppercase letters, and the text that a fuzzer gave. */
static size_t used;
static SgfCounts counts;
static bool is_strict, is_plain;
static const uint8_t *given_text;
static size_t given_text_len;

/* Numbers given back are below this. */
enum { NUMBERS_END = 25 };
static unsigned long operations, accepted, refusals[NUMBERS_END];

/* What a fuzzer is told beside the code that was reached: which call gave which number, and sizes by their bits. */
enum { READ, WALK, FITS, VALUE, DISPLAY, DISPLAY_VALUE, GO_VALUE, GO_BY_RULE, SIZE, ENTRY, SIMPLE_VALUE, SIMPLE_PROPERTY, TALLY, LINE, WRITE, BLOCKS, ESCAPE, BOARD, TAG, NAMED, NEXT, SALVAGE, EDIT, SESSION, LOOKUP, CORRECT, CALLS };
#ifdef FUZZER
__attribute__((section("__libfuzzer_extra_counters")))
#endif
static uint8_t told[CALLS][NUMBERS_END + 6 * 16];

static void tell(int call, int what, size_t size) {
    int bits = 0;
    while (size > 0 && bits < 15) {
        size /= 2;
        bits++;
    }
    told[call][NUMBERS_END + 16 * what + bits] = 1;
}

#define REQUIRE(holds) \
    do { \
        if (!(holds)) { \
            fprintf(stderr, "operation %lu, line %d: %s\ntext: %.*s\n", operations, __LINE__, #holds, (int)used, (char *)lent[TEXTS].at); \
            abort(); \
        } \
    } while (0)

/* Random numbers: of a seed, or the bytes that a fuzzer gives. */
static uint64_t seed = 0x9E3779B97F4A7C15u;
static const uint8_t *given;
static size_t given_len;

static uint32_t draw(uint32_t below) {
    uint32_t number = 0;
    if (given != NULL) {
        for (int i = 0; i < (below > 256 ? 2 : 1) && given_len > 0; i++, given_len--) {
            number = number << 8 | *given++;
        }
        return number % below;
    }
    seed ^= seed >> 12;
    seed ^= seed << 25;
    seed ^= seed >> 27;
    return (uint32_t)(seed * 0x2545F4914F6CDD1Du >> 33) % below;
}

static void remember_all(void) {
    for (int l = 0; l < LENT; l++) {
        remember(&lent[l]);
    }
}

/* Checks that an array is as it was, but for these bytes. */
static void stays_but(int l, size_t from, size_t to) { REQUIRE(same_but(&lent[l], from, to)); }

/* Checks a number against those that the call may give, and all lent memory but what it may write. */
#define MAY(n) (1u << (n))
static bool answered(int call, uint32_t number, uint32_t may_give, unsigned may_write) {
    REQUIRE(number < NUMBERS_END && (number == 0 || (may_give >> number & 1)));
    for (int l = 0; l < LENT; l++) {
        if (number != 0 || !(may_write >> l & 1)) {
            stays_but(l, 0, 0);
        }
    }
    told[call][number] = 1;
    refusals[number]++;
    accepted += number == 0;
    return number == 0;
}

/* Words of a text; the first are those of a text that is accepted. */
static const char *const words[] = {
    ";", "B[aa]", "W[]", "AB[aa:cc][dd]", "HA[2]", "C[x\\]y]", "(;W[bb])", " ", "\n", "\v", "a[b]", "TB[ZZ][aA]", ";C[\xE3\x80\x80]",
    "N[a\\\r\nb]", "LB[aa:1]", "SZ[9]", ";B[ba]", "B[tt]", ";W[ab]", "TE[1]", ";W[aa]", "MN[-7]", ";B[bb]W[ca]", ";AE[aa][bb]AW[ba]", ";B[tt]", "SZ[3]", "SZ[2:20]", "(", ")", "(;", ")(", "C[", "]", "\\", "[", "GM[1]", "GM[2]", "GM[x]", "((;", "\xC3\xA9", "\xFF", "X", "()"};
enum { GOOD = 27, WORDS = sizeof words / sizeof *words };

static size_t make(uint8_t *to, size_t room, uint32_t most, uint32_t kinds) {
    size_t length = 0;
    for (uint32_t left = draw(most); left > 0; left--) {
        const char *word = words[draw(kinds)];
        size_t size = strlen(word);
        if (length + size > room) {
            break;
        }
        memcpy(to + length, word, size);
        length += size;
    }
    return length;
}

/* A text of words, now and then too deep or of anything. */
static size_t make_text(uint8_t *to) {
    size_t length = 0;
    uint32_t kind = draw(64);
    if (kind == 63) {
        uint32_t depth = 1020 + draw(10);
        for (uint32_t i = 0; i < depth; i++) {
            memcpy(to + 2 * i, "(;", 2);
        }
        memset(to + 2 * depth, ')', depth);
        return 3 * depth;
    }
    if (kind > 8) {
        to[length++] = '(';
        to[length++] = ';';
    }
    bool is_good = kind > 20;
    length += make(to + length, TEXT / 2, 40, is_good ? GOOD : WORDS);
    for (uint32_t open = is_good ? 1 : draw(4); open > 0; open--) {
        to[length++] = ')';
    }
    return length;
}

/* Whether every identifier of the record is made of uppercase letters alone. */
static bool are_plain(void) {
    for (size_t p = 0; p < counts.properties; p++) {
        const uint32_t *row = TABLE(PROPERTIES) + SGF_PROPERTY_STRIDE * p;
        for (uint32_t at = row[SGF_PROPERTY_IDENTIFIER_START]; at < row[SGF_PROPERTY_IDENTIFIER_END]; at++) {
            if (lent[TEXTS].at[at] < 'A' || lent[TEXTS].at[at] > 'Z') {
                return false;
            }
        }
    }
    return true;
}

static void read_text(void) {
    uint8_t made[TEXT];
    used = given_text != NULL ? given_text_len : make_text(made);
    lend(&lent[TEXTS], used + (draw(2) ? draw(ROOM) : 0), draw(4) == 3);
    memcpy(lent[TEXTS].at, given_text != NULL ? given_text : made, used);
    size_t rows[TABLES] = {SGF_TREES_FOR(used), SGF_NODES_FOR(used), SGF_PROPERTIES_FOR(used), SGF_VALUES_FOR(used)};
    bool is_short = draw(8) == 7;
    for (int t = 0; t < TABLES; t++) {
        size_t numbers = is_short ? draw((uint32_t)(rows[t] * strides[t]) + 1) : rows[t] * strides[t] + draw(4);
        lend(&lent[t], 4 * numbers, draw(4) == 3);
    }
    uint32_t settings = draw(8);
    bool lenient = draw(2);
    remember_all();
    SgfReading r = (lenient ? sgf_read_lenient : sgf_read_strict)(lent[TEXTS].at, used, settings, LENT_TABLES);
    REQUIRE(r.ignored == settings % 4);
    uint32_t may = lenient ? MAY(2) | MAY(9) | MAY(14) : 0x5FFCu;
    bool good = answered(READ, r.number, is_short ? may : may & ~MAY(14), MAY(TREES) | MAY(NODES) | MAY(PROPERTIES) | MAY(VALUES));
    size_t found[TABLES] = {r.counts.trees, r.counts.nodes, r.counts.properties, r.counts.values};
    for (int t = 0; t < TABLES; t++) {
        REQUIRE(good || found[t] == 0);
        stays_but(t, 0, 4 * strides[t] * found[t]);
        tell(READ, t, found[t]);
    }
    tell(READ, 4, r.place);
    REQUIRE(r.place == 0 || (r.number >= 2 && r.number <= 5 && r.place < used));
    /* How many rows, and why, without tables: what the reading says, which 14 alone can keep from it. */
    SgfReading c = (lenient ? sgf_count_lenient : sgf_count_strict)(lent[TEXTS].at, used);
    SgfWhy w = (lenient ? sgf_why_lenient : sgf_why_strict)(lent[TEXTS].at, used);
    answered(READ, 0, 0, MAY(TREES) | MAY(NODES) | MAY(PROPERTIES) | MAY(VALUES));
    REQUIRE(c.ignored == 0 && c.number != 14 && (r.number == 14 || (c.number == r.number && c.place == r.place)));
    REQUIRE(w.number == c.number && (w.fact == 0) == (w.number == 0) && w.place <= used && memcmp(&w.counts, &c.counts, sizeof c.counts) == 0);
    REQUIRE(w.number < 2 || w.number > 5 || w.place == c.place);
    REQUIRE(!good || memcmp(&c.counts, &r.counts, sizeof c.counts) == 0);
    tell(READ, 5, w.fact);
    counts = r.counts;
    REQUIRE(!good || sgf_fits(RECORD) == 0);
    is_strict = good && !lenient;
    is_plain = is_strict && are_plain();
}

static void damage(void) {
    int t = (int)draw(TABLES);
    size_t numbers = lent[t].length / 4;
    is_strict = is_plain = false;
    switch (draw(4)) {
    case 0:
        if (lent[TEXTS].length > 0) {
            lent[TEXTS].at[draw((uint32_t)lent[TEXTS].length)] = (uint8_t)draw(256);
        }
        break;
    case 1: counts.nodes += draw(3) - 1u; break;
    case 2: used = draw(TEXT); break;
    default:
        if (numbers > 0) {
            TABLE(t)[draw((uint32_t)numbers)] = draw(2) ? draw(12) : SGF_NONE - draw(2);
        }
        break;
    }
}

/* The tokens of the used text, and the values of its properties; whether each tree begins with its start. */
static bool walk(void) {
    const uint8_t *text = lent[TEXTS].at;
    size_t all = used < lent[TEXTS].length ? used : lent[TEXTS].length;
    SgfTrim kept = sgf_trim(text, all);
    if (!answered(WALK, kept.number, MAY(2), 0)) {
        return false;
    }
    REQUIRE(kept.first <= kept.last && kept.last <= all);
    size_t length = kept.last - kept.first, open = 0;
    bool begins = true;
    text += kept.first;
    for (SgfToken token = sgf_token(text, length, 0); token.kind != SGF_DONE; token = sgf_token(text, length, token.to)) {
        tell(WALK, 0, token.to - token.from);
        if (token.kind == SGF_FAULT) {
            told[WALK][token.number] = 1;
            REQUIRE(token.number >= 3 && token.number <= 5);
            break;
        }
        REQUIRE(token.number == 0 && token.from <= token.opens && token.opens < token.to && token.to <= length);
        begins = begins && (open > 0 || token.kind == SGF_START);
        open += (token.kind == SGF_START) - (token.kind == SGF_END && open > 0);
        for (size_t at = token.opens; token.kind == SGF_PROPERTY;) {
            SgfValue value = sgf_next_value(text, length, at);
            if (value.kind != SGF_VALUE) {
                REQUIRE(value.kind == SGF_NO_VALUE);
                break;
            }
            REQUIRE(at < value.from && value.from <= value.to && value.to < value.next && value.next <= token.to);
            at = value.next;
        }
    }
    answered(WALK, 0, 0, 0);
    return begins;
}

static bool same_counts(SgfCounts a, SgfCounts b) {
    return a.trees == b.trees && a.nodes == b.nodes && a.properties == b.properties && a.values == b.values;
}

/* Tables of a second reading. */
static uint32_t fresh[TABLES][SGF_NODE_STRIDE * OUT];
#define FRESH fresh[0], SGF_NODE_STRIDE * OUT, fresh[1], SGF_NODE_STRIDE * OUT, fresh[2], SGF_NODE_STRIDE * OUT, fresh[3], SGF_NODE_STRIDE * OUT

/* A fresh strict reading of the used text has the same rows. */
static void check_fresh(void) {
    SgfReading r = sgf_read_strict(lent[TEXTS].at, used, 0, FRESH);
    size_t rows[TABLES] = {counts.trees, counts.nodes, counts.properties, counts.values};
    REQUIRE(r.number == 0 && same_counts(r.counts, counts));
    for (int t = 0; t < TABLES; t++) {
        REQUIRE(memcmp(fresh[t], lent[t].at, rows[t] * strides[t] * 4) == 0);
    }
}

/* Boards: those compared, along lines and after edits, and edits that changed one. */
static unsigned long boards, steps_along, boards_fresh, boards_changed;

static bool same_board(SgfBoard a, SgfBoard b) { return memcmp(&a, &b, sizeof a) == 0; }

/* Behind check_fresh: the board at a node is that of the fresh reading, and now and then another than it was. */
static void check_board(size_t node, SgfBoard before) {
    SgfBoard now = sgf_board(RECORD, node);
    REQUIRE(same_board(now, sgf_board(lent[TEXTS].at, used, used, counts, FRESH, node)));
    boards_fresh++;
    boards_changed += !same_board(now, before);
}

/* A strict reading of a writing has the same trees and nodes, and is written again as the same bytes. */
static void check_again(size_t length) {
    static uint8_t again[OUT];
    SgfReading r = sgf_read_strict(lent[OUTS].at, length, 0, FRESH);
    SgfCounts c = r.counts;
    REQUIRE(r.number == 0 && c.trees == counts.trees && c.nodes == counts.nodes && c.properties == counts.properties);
    REQUIRE(memcmp(fresh[0], TABLE(TREES), 8 * c.trees) == 0 && memcmp(fresh[1], TABLE(NODES), 20 * c.nodes) == 0);
    SgfWriting w = sgf_write(lent[OUTS].at, length, length, c, FRESH, again, OUT);
    REQUIRE(w.number == 0 && w.length == length && memcmp(again, lent[OUTS].at, length) == 0);
}

/* Two or three letters, as of a point. */
static size_t make_point(uint8_t *to) {
    static const char letters[] = "aabbcdtAZ:5";
    size_t length = 2 + (draw(8) == 0);
    for (size_t i = 0; i < length; i++) {
        to[i] = (uint8_t)letters[draw(sizeof letters - 1)];
    }
    return length;
}

/* One part over and over, which is closed. */
static size_t make_parts(uint8_t *to) {
    static const char *const parts[] = {"x", "\xC3\xA9", "\\]", "a\\\\", "\xE3\x80\x80 "};
    const char *part = parts[draw(5)];
    size_t size = strlen(part), length = size * draw(NEW / 4);
    for (size_t at = 0; at < length; at += size) {
        memcpy(to + at, part, size);
    }
    return length;
}

/* A new value: a point, or of words, or a longer one. */
static size_t make_value(uint8_t *to) {
    if (draw(3) == 0) {
        return make_point(to);
    }
    return draw(4) != 3 ? make(to, NEW, 4, WORDS) : make_parts(to);
}

static void edit(size_t k) {
    uint8_t made[NEW];
    size_t length = make_value(made), old_used = used;
    lend(&lent[NEWS], length, draw(4) == 3);
    memcpy(lent[NEWS].at, made, length);
    size_t from = sgf_value(RECORD, k).from;
    size_t node = is_strict ? counts.nodes - 1 - draw((uint32_t)counts.nodes) / 2 : 0;
    SgfBoard before = is_strict ? sgf_board(RECORD, node) : (SgfBoard){0};
    remember_all();
    SgfEdit e = sgf_edit(RECORD, k, BYTES(NEWS));
    uint32_t may = MAY(19) | MAY(16) | MAY(17) | MAY(2) | MAY(18) | MAY(14);
    tell(EDIT, 0, e.place);
    REQUIRE(e.place == 0 || (e.number == 2 && e.place < length));
    if (!answered(EDIT, e.number, may, MAY(TEXTS) | MAY(PROPERTIES) | MAY(VALUES))) {
        REQUIRE(e.used == 0 && same_counts(e.counts, (SgfCounts){0, 0, 0, 0}));
        return;
    }
    REQUIRE(same_counts(e.counts, counts));
    used = e.used;
    stays_but(TEXTS, from, used > old_used ? used : old_used);
    stays_but(PROPERTIES, 0, 16 * counts.properties);
    stays_but(VALUES, 0, 8 * counts.values);
    for (size_t at = used; at < old_used; at++) {
        REQUIRE(lent[TEXTS].at[at] == 0);
    }
    SgfSpan span = sgf_value(RECORD, k);
    REQUIRE(span.number == 0 && span.to - span.from == length && memcmp(lent[TEXTS].at + span.from, made, length) == 0);
    tell(EDIT, 1, used > old_used ? used - old_used : 0);
    tell(EDIT, 2, old_used > used ? old_used - used : 0);
    if (is_strict) {
        check_fresh();
        check_board(node, before);
    }
}

/* The states of a session: used texts, and the bytes of a value to come to the one before, or to the one behind. */
enum { STEPS = 64 };
static struct {
    uint8_t text[TEXT + ROOM], bytes[TEXT + ROOM];
    size_t used, value, length;
} states[STEPS + 1];
static uint8_t first[TABLES][4 * SGF_NODE_STRIDE * TEXT], last[TABLES][4 * SGF_NODE_STRIDE * TEXT];
static unsigned long sessions, undone;

static void keep_state(size_t at) {
    states[at].used = used;
    memcpy(states[at].text, lent[TEXTS].at, used);
}

/* Keeps the bytes of value k in a state. */
static void keep_bytes(size_t at, size_t k) {
    SgfSpan span = sgf_value(RECORD, k);
    states[at].value = k;
    states[at].length = span.to - span.from;
    memcpy(states[at].bytes, lent[TEXTS].at + span.from, states[at].length);
}

/* Puts the bytes kept in a state, keeps there what they replace, and comes to the used text of state `to`. */
static void put(size_t at, size_t to) {
    static uint8_t bytes[TEXT + ROOM];
    size_t k = states[at].value, length = states[at].length;
    memcpy(bytes, states[at].bytes, length);
    keep_bytes(at, k);
    remember_all();
    SgfEdit e = sgf_edit(RECORD, k, bytes, length);
    REQUIRE(e.number == 0 && same_counts(e.counts, counts));
    answered(SESSION, 0, 0, MAY(TEXTS) | MAY(PROPERTIES) | MAY(VALUES));
    used = e.used;
    REQUIRE(used == states[to].used && memcmp(lent[TEXTS].at, states[to].text, used) == 0);
}

/* The tag of the record's writing, or the number of its refusal. */
static uint64_t tag_of_writing(void) {
    static uint8_t written[OUT];
    SgfWriting w = sgf_write(RECORD, written, sizeof written);
    return w.number == 0 ? sgf_tag(written, w.length) : w.number;
}

/* A session of edits, undone, done again, and now and then undone once more; tables at either end are compared whole. */
static void session(void) {
    size_t steps = 0;
    if (sgf_fits(RECORD) != 0 || counts.values == 0) {
        return;
    }
    for (int t = 0; t < TABLES; t++) {
        memcpy(first[t], lent[t].at, lent[t].length);
    }
    uint64_t tags[2] = {tag_of_writing(), 0};
    keep_state(0);
    for (uint32_t left = draw(STEPS + 1); left > 0; left--) {
        size_t k = draw((uint32_t)counts.values);
        unsigned long before = accepted;
        keep_bytes(steps, k);
        edit(k);
        if (accepted > before) {
            keep_state(++steps);
        }
    }
    tell(SESSION, 0, steps);
    sessions += steps > 0;
    undone += steps;
    for (int t = 0; t < TABLES; t++) {
        memcpy(last[t], lent[t].at, lent[t].length);
    }
    tags[1] = tag_of_writing();
    for (int way = 0, ways = 2 + (int)draw(2); way < ways; way++) {
        for (size_t at = 0; at < steps; at++) {
            way % 2 == 0 ? put(steps - 1 - at, steps - 1 - at) : put(at, at + 1);
        }
        for (int t = 0; t < TABLES; t++) {
            REQUIRE(memcmp(way % 2 == 0 ? first[t] : last[t], lent[t].at, lent[t].length) == 0);
        }
        REQUIRE(tag_of_writing() == tags[way % 2]);
    }
}

/* A feed of up to seven corrections of values up to k and behind it, most of which may be taken; now and then damaged. */
static uint32_t make_feed(size_t k) {
    uint8_t feed[FEED], new[NEW];
    uint32_t count = draw(8);
    size_t at = sgf_feed_begin(count, feed, sizeof feed).length, value = draw(4) == 3 ? k : draw((uint32_t)(k % TEXT) + 1);
    for (uint32_t i = 0; i < count; i++, value += 1 + (draw(8) == 7 ? draw(200) : 0)) {
        size_t length = draw(16) == 15 ? make_value(new) : draw(4) == 3 ? make_parts(new) : make_point(new);
        SgfWriting w = sgf_feed_add(value, new, length, feed + at, sizeof feed - at);
        REQUIRE(w.number == 0 || w.number == 14 || w.number == 24);
        at += w.length;
    }
    if (at > 0 && draw(4) == 3) {
        feed[draw((uint32_t)at)] = (uint8_t)draw(256);
    }
    lend(&lent[NEWS], at, draw(4) == 3);
    memcpy(lent[NEWS].at, feed, at);
    return count;
}

static const uint32_t FEED_MAY = UINT32_C(1) << 19 | UINT32_C(1) << 24 | 1 << 16 | 1 << 17 | 1 << 2 | 1 << 18;

/* The lookup, the check and the find agree. */
static void lookup(size_t k) {
    make_feed(draw((uint32_t)(counts.values % TEXT) + 2));
    remember_all();
    SgfCheck c = sgf_feed_check(RECORD, BYTES(NEWS));
    SgfPart p = sgf_corrected(RECORD, BYTES(NEWS), k), f = sgf_feed_find(BYTES(NEWS), k);
    REQUIRE(f.number == 0 && f.place == 0 && f.from <= f.to && f.to <= lent[NEWS].length);
    REQUIRE(c.place == 0 || (c.number == 2 && c.place < lent[NEWS].length));
    if (!answered(LOOKUP, p.number, FEED_MAY, 0)) {
        REQUIRE(p.source == 0 && p.from == 0 && p.to == 0 && (c.number == 0 ? p.number == 16 : p.number == c.number && p.place == c.place));
        return;
    }
    REQUIRE(c.number == 0 && p.place == 0 && p.source == f.source && p.from <= p.to);
    if (p.source == SGF_FROM_FEED) {
        REQUIRE(p.from == f.from && p.to == f.to);
    } else {
        SgfSpan span = sgf_value(RECORD, k);
        REQUIRE(p.from == span.from && p.to == span.to);
    }
}

/* A feed applied: every value's bytes are what the lookup handed out. */
static unsigned long feeds, corrections;
static void correct(size_t k) {
    uint32_t count = make_feed(k % TEXT);
    uint8_t handed[NEW + TEXT];
    size_t old_used = used, asked = draw((uint32_t)(counts.values % TEXT) + 1), length = 0;
    SgfPart p = sgf_corrected(RECORD, BYTES(NEWS), asked);
    if (p.number == 0) {
        length = p.to - p.from;
        REQUIRE(length <= sizeof handed);
        memcpy(handed, lent[p.source == SGF_FROM_FEED ? NEWS : TEXTS].at + p.from, length);
    }
    remember_all();
    SgfEdit e = sgf_correct(RECORD, BYTES(NEWS));
    REQUIRE(e.place == 0 || (e.number == 2 && e.place < lent[NEWS].length));
    if (!answered(CORRECT, e.number, FEED_MAY | MAY(14), MAY(TEXTS) | MAY(PROPERTIES) | MAY(VALUES))) {
        REQUIRE(e.used == 0 && same_counts(e.counts, (SgfCounts){0, 0, 0, 0}));
        return;
    }
    REQUIRE(same_counts(e.counts, counts) && sgf_feed_check(RECORD, BYTES(NEWS)).reserved == 0);
    used = e.used;
    stays_but(TEXTS, 0, used > old_used ? used : old_used);
    stays_but(PROPERTIES, 0, 16 * counts.properties);
    stays_but(VALUES, 0, 8 * counts.values);
    for (size_t at = used; at < old_used; at++) {
        REQUIRE(lent[TEXTS].at[at] == 0);
    }
    if (p.number == 0) {
        SgfSpan span = sgf_value(RECORD, asked);
        REQUIRE(span.number == 0 && span.to - span.from == length && memcmp(lent[TEXTS].at + span.from, handed, length) == 0);
    }
    feeds++;
    corrections += count;
    tell(CORRECT, 0, count);
    tell(CORRECT, 1, used > old_used ? used - old_used : 0);
    tell(CORRECT, 2, old_used > used ? old_used - used : 0);
    if (is_strict) {
        check_fresh();
    }
}

/* The length that a writing needs, beside what it answered. */
static void check_length(SgfWriting w) {
    SgfWriting n = sgf_write_length(RECORD);
    REQUIRE(n.number == (w.number == 14 ? 0 : w.number) && n.reserved == 0);
    REQUIRE(w.number == 14 ? lent[OUTS].length < n.length : n.length == w.length);
}

static void write_text(void) {
    SgfWriting w = sgf_write(RECORD, BYTES(OUTS));
    check_length(w);
    if (answered(WRITE, w.number, MAY(19) | MAY(15) | MAY(14), MAY(OUTS))) {
        tell(WRITE, 0, w.length);
        stays_but(OUTS, 0, w.length);
        remember_all();
        if (is_plain && walk()) {
            check_again(w.length);
        }
    }
}

/* Salvages the used text: 1 cannot come from so short a text, a refusal leaves tables, list and output. */
static uint32_t rescued[TABLES][SGF_NODE_STRIDE * OUT];
#define RESCUED rescued[0], SGF_NODE_STRIDE * OUT, rescued[1], SGF_NODE_STRIDE * OUT, rescued[2], SGF_NODE_STRIDE * OUT, rescued[3], SGF_NODE_STRIDE * OUT
static unsigned long salvaged, changed;

static void salvage(void) {
    static uint8_t again[OUT];
    size_t length = used < lent[TEXTS].length ? used : lent[TEXTS].length;
    size_t numbers = SGF_CHANGE_STRIDE * SGF_CHANGES_FOR(length);
    lend(&lent[LISTS], 4 * (draw(4) == 3 ? draw((uint32_t)numbers + 1) : numbers + draw(4)), draw(4) == 3);
    remember_all();
    size_t filled = SGF_NODE_STRIDE * SGF_NODES_FOR(length);
    for (int t = 0; t < TABLES; t++) {
        memset(rescued[t], 0x5A, 4 * filled);
    }
    SgfSalvage s = sgf_salvage(lent[TEXTS].at, length, RESCUED, NUMBERS(LISTS), BYTES(OUTS));
    bool good = answered(SALVAGE, s.number, MAY(2) | MAY(9) | MAY(14), MAY(OUTS) | MAY(LISTS));
    SgfReading r = sgf_read_lenient(lent[TEXTS].at, length, 0, FRESH);
    REQUIRE(s.reserved == 0 && s.place == r.place && (r.number == 0 || s.number == r.number));
    size_t rows[TABLES] = {r.counts.trees, r.counts.nodes, r.counts.properties, r.counts.values};
    for (int t = 0; t < TABLES; t++) {
        size_t kept = good ? rows[t] * strides[t] : 0;
        REQUIRE(memcmp(fresh[t], rescued[t], kept * 4) == 0);
        while (kept < filled && rescued[t][kept] == 0x5A5A5A5A) {
            kept++;
        }
        REQUIRE(kept == filled);
    }
    if (!good) {
        REQUIRE(s.length == 0 && s.changes == 0 && s.counts.trees + s.counts.nodes + s.counts.properties + s.counts.values == 0);
        return;
    }
    REQUIRE(same_counts(s.counts, r.counts) && s.changes <= 2 * s.counts.trees + s.counts.properties + 1);
    tell(SALVAGE, 0, s.length);
    tell(SALVAGE, 1, s.changes);
    stays_but(OUTS, 0, s.length);
    stays_but(LISTS, 0, 4 * SGF_CHANGE_STRIDE * s.changes);
    salvaged++;
    changed += s.changes;
    size_t removed = 0;
    for (size_t i = 0; i < s.changes; i++) {
        const uint32_t *row = TABLE(LISTS) + SGF_CHANGE_STRIDE * i;
        uint32_t kind = row[SGF_CHANGE_KIND];
        bool of_tree = kind == SGF_TREE_CUT || kind == SGF_EMPTY_ROOT, has_place = kind == SGF_TREE_CUT || kind == SGF_TAIL_DROPPED;
        REQUIRE(kind <= SGF_TAIL_DROPPED && (has_place ? row[SGF_CHANGE_PLACE] < length : row[SGF_CHANGE_PLACE] == 0));
        REQUIRE(kind == SGF_TAIL_DROPPED ? row[SGF_CHANGE_NUMBER] == 0 && i + 1 == s.changes : row[SGF_CHANGE_NUMBER] < (of_tree ? s.counts.trees : s.counts.properties));
        removed += kind == SGF_NAMELESS_REMOVED || kind == SGF_GM_REMOVED;
    }
    SgfReading strict = sgf_read_strict(lent[OUTS].at, s.length, 0, FRESH);
    REQUIRE(strict.number == 0 && strict.counts.trees == s.counts.trees && strict.counts.nodes == s.counts.nodes && strict.counts.properties + removed == s.counts.properties);
    SgfSalvage twice = sgf_salvage(lent[OUTS].at, s.length, FRESH, NULL, 0, again, s.length);
    REQUIRE(twice.number == 0 && twice.changes == 0 && twice.length == s.length && memcmp(again, lent[OUTS].at, s.length) == 0);
    remember_all();
}

static void display(size_t k, uint32_t kind) {
    SgfDisplay d = sgf_display(RECORD, k, kind, BYTES(OUTS));
    answered(DISPLAY, d.number, MAY(19) | MAY(16) | MAY(14), MAY(OUTS));
    stays_but(OUTS, 0, d.length);
    tell(DISPLAY, (int)kind, d.length);
}

/* Any part of the text as a raw value; where it is value k of tables that fit, it is displayed as by its number. */
static void display_value(size_t k, uint32_t kind) {
    static uint8_t first[OUT];
    size_t length = lent[TEXTS].length, from = draw((uint32_t)length + 1), to = from + draw((uint32_t)(length - from) + 1);
    SgfSpan span = sgf_value(RECORD, k);
    if (span.number == 0) {
        from = span.from;
        to = span.to;
    }
    SgfDisplay d = sgf_display_value(kind, lent[TEXTS].at + from, to - from, BYTES(OUTS));
    answered(DISPLAY_VALUE, d.number, to - from > lent[OUTS].length ? MAY(14) : 0, MAY(OUTS));
    stays_but(OUTS, 0, d.length);
    REQUIRE(d.length <= to - from && d.reserved == 0);
    tell(DISPLAY_VALUE, (int)kind, d.length);
    if (span.number == 0) {
        memcpy(first, lent[OUTS].at, d.length);
        SgfDisplay again = sgf_display(RECORD, k, kind, BYTES(OUTS));
        REQUIRE(again.number == d.number && again.length == d.length && memcmp(first, lent[OUTS].at, d.length) == 0);
    }
}

static void go_value(size_t p) {
    SgfGoValue v = sgf_go_value(RECORD, p);
    answered(GO_VALUE, v.number, MAY(19) | MAY(16), 0);
    tell(GO_VALUE, 0, (size_t)1 << v.kind);
    size_t marks = 0;
    for (int i = 0; i < SGF_POINT_PLACES; i++) {
        marks += v.marks[i];
    }
    tell(GO_VALUE, 1, marks);
    REQUIRE((marks > 0) == (v.kind == SGF_POINTS) && v.x < 52 && v.y < 52 && (v.handicap >= 2) == (v.kind == SGF_HANDICAP));
}

/* Any rows, which need not fit. */
static void go_by_rule(size_t first) {
    size_t name = draw(4), length = lent[TEXTS].length;
    uint32_t rule = draw(4), count = draw(4);
    SgfGoValue v = sgf_go_by_rule(rule, lent[TEXTS].at, name < length ? name : length, BYTES(TEXTS), NUMBERS(VALUES), first, count);
    answered(GO_BY_RULE, v.number, 0, 0);
    tell(GO_BY_RULE, 0, (size_t)1 << v.kind);
}

/* By its number, and by its rows, which need not fit. */
static void size(size_t tree) {
    SgfSize s = sgf_size(RECORD, tree);
    SgfSize rows = sgf_tree_size(lent[TEXTS].at, used < lent[TEXTS].length ? used : lent[TEXTS].length, NUMBERS(TREES), NUMBERS(NODES),
                                 NUMBERS(PROPERTIES), NUMBERS(VALUES), tree);
    bool given = answered(SIZE, s.number, MAY(19) | MAY(16), 0);
    REQUIRE(rows.number == 0 && rows.kind < 3 && rows.rule < 3 && rows.columns <= 52 && rows.rows <= 52);
    REQUIRE((rows.columns == 0) == (rows.kind == SGF_SIZE_WRONG) && (rows.rows == 0) == (rows.kind == SGF_SIZE_WRONG));
    REQUIRE(given ? memcmp(&s, &rows, sizeof s) == 0 : (s.kind | s.columns | s.rows | s.rule) == 0);
    tell(SIZE, 0, (size_t)1 << (3 * rows.kind + rows.rule));
}

/* Whether the uppercase letters of a property's identifier are this one alone. */
static bool is_named(size_t p, uint8_t letter) {
    const uint32_t *row = TABLE(PROPERTIES) + SGF_PROPERTY_STRIDE * p;
    size_t found = 0, other = 0;
    for (uint32_t at = row[SGF_PROPERTY_IDENTIFIER_START]; at < row[SGF_PROPERTY_IDENTIFIER_END]; at++) {
        uint8_t b = lent[TEXTS].at[at];
        found += b == letter;
        other += b != letter && b >= 'A' && b <= 'Z';
    }
    return found == 1 && other == 0;
}

/* The tally of a record, beside its counts and, of a small one, its Go values; the tag of any part of the text, beside the
 * plain loop. */
static void season(void) {
    size_t length = lent[TEXTS].length, from = draw((uint32_t)length + 1), to = from + draw((uint32_t)(length - from) + 1);
    uint64_t tag = UINT64_C(14695981039346656037);
    for (size_t i = from; i < to; i++) {
        tag = (tag ^ lent[TEXTS].at[i]) * UINT64_C(1099511628211);
    }
    REQUIRE(sgf_tag(lent[TEXTS].at + from, to - from) == tag);
    SgfTally t = sgf_tally(RECORD);
    bool given = answered(TALLY, t.number, MAY(19), 0);
    REQUIRE(t.reserved == 0 && (given || (t.trees | t.nodes | t.black | t.white | t.passes) == 0));
    tell(TALLY, 0, t.black + t.white);
    tell(TALLY, 1, t.passes);
    if (!given) {
        return;
    }
    REQUIRE(t.trees == counts.trees && t.nodes == counts.nodes && t.black + t.white + t.passes <= counts.properties);
    if (counts.properties > 16) {
        return;
    }
    size_t black = 0, white = 0, passes = 0;
    for (size_t p = 0; p < counts.properties; p++) {
        SgfGoValue v = sgf_go_value(RECORD, p);
        black += v.kind == SGF_MOVE && is_named(p, 'B');
        white += v.kind == SGF_MOVE && is_named(p, 'W');
        passes += v.kind == SGF_PASS;
    }
    REQUIRE(t.black == black && t.white == white && t.passes == passes);
}

/* The line of a record, beside a writing into as many bytes, its tally and the tag of what was written. */
static void line(void) {
    static uint8_t written[OUT];
    SgfLine l = sgf_line(RECORD, BYTES(OUTS));
    bool good = answered(LINE, l.number, MAY(19) | MAY(15) | MAY(14), MAY(OUTS));
    stays_but(OUTS, 0, l.length);
    SgfWriting w = sgf_write(RECORD, written, lent[OUTS].length);
    REQUIRE(l.reserved == 0 && l.number == w.number && l.length == w.length && memcmp(lent[OUTS].at, written, l.length) == 0);
    tell(LINE, 0, l.length);
    if (!good) {
        REQUIRE((l.trees | l.nodes | l.black | l.white | l.passes) == 0 && l.tag == 0);
        return;
    }
    SgfTally t = sgf_tally(RECORD);
    REQUIRE(l.trees == t.trees && l.nodes == t.nodes && l.black == t.black && l.white == t.white && l.passes == t.passes);
    REQUIRE(l.tag == sgf_tag(written, w.length));
}

/* Any part of the text as an identifier. */
static void entry(void) {
    size_t length = lent[TEXTS].length, from = draw((uint32_t)length + 1), to = from + draw((uint32_t)(length - from) + 1);
    SgfEntry e = sgf_entry(lent[TEXTS].at + from, to - from);
    answered(ENTRY, 0, 0, 0);
    tell(ENTRY, 0, (size_t)1 << e.section);
    REQUIRE((e.kind == 0) == (e.section == 0) && e.kind <= SGF_KIND_FIGURE && e.type <= SGF_TYPE_INHERIT && e.section <= SGF_SECTION_GO);
}

static void is_simple(SgfSimple v) {
    bool sized = v.kind == SGF_SIMPLE_DOUBLE || v.kind == SGF_SIMPLE_COLOR;
    REQUIRE(v.reserved == 0 && v.kind <= SGF_SIMPLE_NUMBER && (v.number == 0 || v.kind == SGF_SIMPLE_OTHER));
    REQUIRE(sized ? v.size == 1 || v.size == 2 : v.size == 0 || v.kind == SGF_SIMPLE_NUMBER);
    REQUIRE(v.negative <= (v.kind == SGF_SIMPLE_NUMBER) && v.size <= (uint64_t)INT64_MAX + v.negative);
}

static void simple_value(size_t p) {
    SgfSimple v = sgf_simple_value(RECORD, p);
    answered(SIMPLE_VALUE, v.number, MAY(19) | MAY(16), 0);
    tell(SIMPLE_VALUE, 0, (size_t)1 << v.kind);
    is_simple(v);
}

/* Any rows, which need not fit. */
static void simple_property(size_t first) {
    static const char *names[] = {"TE", "PL", "KO", "MN", "HA", "C"};
    size_t name = draw(4), length = lent[TEXTS].length;
    uint32_t rule = draw(4), count = draw(4), listed = draw(8);
    const uint8_t *identifier = listed < 6 ? (const uint8_t *)names[listed] : lent[TEXTS].at;
    size_t identifier_len = listed < 6 ? strlen(names[listed]) : name < length ? name : length;
    SgfSimple v = sgf_simple_property(rule, identifier, identifier_len, BYTES(TEXTS), NUMBERS(VALUES), first, count);
    answered(SIMPLE_PROPERTY, v.number, 0, 0);
    tell(SIMPLE_PROPERTY, 0, (size_t)1 << v.kind);
    is_simple(v);
}

/* The text in two ways of cutting it, of the same answer and rows; now and then from a state that no call gave. Rows stand
 * before a fence. */
static uint32_t block_rows[2][SGF_TOKEN_STRIDE * TEXT + 4];
static SgfClose take_blocks(uint32_t *rows, size_t rows_len, SgfBlocks state, uint32_t most) {
    size_t all = used < lent[TEXTS].length ? used : lent[TEXTS].length;
    int empty = 0;
    for (size_t at = 0; at < all;) {
        size_t length = draw(most);
        if (length == 0 && ++empty > 4) {
            length = 1;
        }
        length = length < all - at ? length : all - at;
        SgfBlock block = sgf_block(state, lent[TEXTS].at + at, length, rows, rows_len);
        REQUIRE(block.number == 0);
        state = block.state;
        at += length;
    }
    SgfClose close = sgf_close(state, rows, rows_len);
    REQUIRE(close.state.closed == 1 && sgf_block(close.state, lent[TEXTS].at, all, rows, rows_len).number == 20);
    REQUIRE(sgf_close(close.state, rows, rows_len).number == 20);
    for (size_t i = rows_len; i < rows_len + 4; i++) {
        REQUIRE(rows[i] == 7);
    }
    for (size_t i = close.number == 0 ? close.tokens * SGF_TOKEN_STRIDE : 0; i < rows_len / 3 * 3; i++) {
        REQUIRE(rows[i] == 0);
    }
    return close;
}

static void blocks(void) {
    SgfBlocks state = {0};
    size_t rows_len = draw(4) == 3 ? SGF_TOKEN_STRIDE * TEXT : draw(200);
    if (draw(8) == 7) {
        uint32_t numbers[12];
        for (int i = 0; i < 12; i++) {
            numbers[i] = i == 11 ? 0 : draw(3) == 2 ? draw(0xFFFFFFFFu) : draw(9);
        }
        memcpy(&state, numbers, sizeof state);
    }
    for (int way = 0; way < 2; way++) {
        for (size_t i = 0; i < sizeof block_rows[0] / 4; i++) {
            block_rows[way][i] = 7;
        }
    }
    SgfClose one = take_blocks(block_rows[0], rows_len, state, 1 + draw(200));
    SgfClose other = take_blocks(block_rows[1], rows_len, state, TEXT);
    REQUIRE(one.number == other.number && one.place == other.place && one.tokens == other.tokens);
    REQUIRE(memcmp(block_rows[0], block_rows[1], rows_len * 4) == 0);
    answered(BLOCKS, one.number, MAY(1) | MAY(2) | MAY(3) | MAY(4) | MAY(5) | MAY(14), 0);
    tell(BLOCKS, 0, one.tokens);
}

/* A part of the text, now and then all of it. */
static size_t part_of_text(size_t *from) {
    size_t length = lent[TEXTS].length;
    *from = draw(4) == 3 ? 0 : draw((uint32_t)length + 1);
    return draw(4) == 3 ? length - *from : draw((uint32_t)(length - *from) + 1);
}

/* Any part of the text as plain text: at most twice as long, never refused where there is room for that, read back it is
 * the part, and where that is UTF-8 an edit takes it. */
static void escape(void) {
    size_t from, length = part_of_text(&from);
    const uint8_t *plain = lent[TEXTS].at + from, *raw = lent[OUTS].at;
    SgfDisplay d = sgf_escape(plain, length, BYTES(OUTS));
    bool given = answered(ESCAPE, d.number, lent[OUTS].length < 2 * length ? MAY(14) : 0, MAY(OUTS));
    stays_but(OUTS, 0, d.length);
    REQUIRE(d.reserved == 0 && d.length <= 2 * length && d.length <= lent[OUTS].length && (given || d.length == 0));
    tell(ESCAPE, 0, d.length - (given ? length : 0));
    size_t at = 0;
    for (size_t i = 0; given && i < length; i++) {
        at += raw[at] == '\\';
        REQUIRE(at < d.length && raw[at++] == plain[i] && (plain[i] != ']' || raw[at - 2] == '\\'));
    }
    REQUIRE(at == d.length);
    if (given && counts.values > 0 && d.length < TEXT / 2 && sgf_trim(plain, length).number == 0) {
        remember_all();
        SgfEdit e = sgf_edit(RECORD, counts.values - 1, raw, d.length);
        REQUIRE(e.number == 0 || e.number == 19 || e.number == 17 || e.number == 14);
        answered(ESCAPE, e.number, MAY(19) | MAY(17) | MAY(14), MAY(TEXTS) | MAY(PROPERTIES) | MAY(VALUES));
        used = e.number == 0 ? e.used : used;
    }
}

/* The tag of any part of the text, as FNV-1a has it. */
static void tag(void) {
    size_t from, length = part_of_text(&from);
    uint64_t sum = UINT64_C(14695981039346656037);
    for (size_t i = 0; i < length; i++) {
        sum = (sum ^ lent[TEXTS].at[from + i]) * UINT64_C(1099511628211);
    }
    REQUIRE(sgf_tag(lent[TEXTS].at + from, length) == sum && sgf_version() == SGF_VERSION);
    answered(TAG, 0, 0, 0);
}

/* Any part of the text beside a name of up to three letters, and beside its own uppercase letters. */
static void named(void) {
    uint8_t letters[TEXT + ROOM], name[3];
    size_t from, length = part_of_text(&from), count = 0, asked = draw(4);
    const uint8_t *identifier = lent[TEXTS].at + from;
    for (size_t i = 0; i < length; i++) {
        if (identifier[i] >= 'A' && identifier[i] <= 'Z') {
            letters[count++] = identifier[i];
        }
    }
    for (size_t i = 0; i < asked; i++) {
        name[i] = (uint8_t)(draw(8) == 7 ? 'a' : count > 0 ? letters[draw((uint32_t)count)] : 'B');
    }
    bool same = asked == count && memcmp(name, letters, asked) == 0;
    REQUIRE(sgf_is_named(identifier, length, name, asked) == same && sgf_is_named(identifier, length, letters, count) == 1);
    answered(NAMED, 0, 0, 0);
    tell(NAMED, 0, same);
}

/* A board that was played from an empty one: stones on it alone, and put on is what stands and what was taken off. */
static void is_board(const SgfBoard *b) {
    uint64_t standing[3] = {0, 0, 0};
    REQUIRE(b->reserved == 0 && b->columns <= 52 && b->rows <= 52);
    REQUIRE((b->columns > 0) == (b->number == 0) && (b->rows > 0) == (b->number == 0));
    for (uint32_t at = 0; at < SGF_POINT_PLACES; at++) {
        REQUIRE(b->stones[at] <= SGF_WHITE && (b->stones[at] == 0 || (at / 52 < b->columns && at % 52 < b->rows)));
        standing[b->stones[at]]++;
    }
    REQUIRE(b->black_on == standing[SGF_BLACK] + b->black_off && b->white_on == standing[SGF_WHITE] + b->white_off);
}

/* The board at a node; and along its line, each node upon the board of its parent, which is the board there. */
static void board(size_t node) {
    static uint32_t way[TEXT + ROOM];
    SgfBoard at_node = sgf_board(RECORD, node);
    answered(BOARD, at_node.number, MAY(19) | MAY(21) | MAY(22) | MAY(23), 0);
    is_board(&at_node);
    tell(BOARD, 0, at_node.black_on + at_node.white_on);
    tell(BOARD, 1, at_node.black_off + at_node.white_off);
    if (at_node.number == 19 || at_node.number == 21) {
        return;
    }
    size_t length = 0;
    for (uint32_t at = (uint32_t)node; at != SGF_NONE; at = TABLE(NODES)[SGF_NODE_STRIDE * at + SGF_NODE_PARENT]) {
        way[length++] = at;
    }
    SgfBoard along = sgf_board(RECORD, way[length - 1]);
    for (size_t i = length - 1; i > 0; i--) {
        const uint32_t *row = TABLE(NODES) + SGF_NODE_STRIDE * way[i - 1];
        along.reserved = draw(3);
        along = sgf_board_next(along, lent[TEXTS].at, used, NUMBERS(PROPERTIES), NUMBERS(VALUES), row[SGF_NODE_FIRST_PROPERTY],
                               row[SGF_NODE_PROPERTY_COUNT]);
        /* Of a long line some nodes are played from the root. */
        if (length < 40 || i % (length / 8) == 0) {
            REQUIRE(same_board(along, sgf_board(RECORD, way[i - 1])));
        }
        steps_along++;
    }
    REQUIRE(same_board(along, at_node));
    boards++;
    answered(BOARD, 0, 0, 0);
}

/* Any rows upon any board. */
static void board_next(size_t first) {
    static SgfBoard any;
    memset(&any, 0, sizeof any);
    any.number = draw(8) == 7 ? draw(NUMBERS_END) : 0;
    any.columns = draw(60);
    any.rows = draw(60);
    any.reserved = draw(3);
    any.black_on = draw(2) ? draw(9) : UINT64_MAX - draw(3);
    any.white_off = draw(2) ? draw(9) : UINT64_MAX - draw(3);
    for (uint32_t stones = draw(60); stones > 0; stones--) {
        any.stones[52 * draw(draw(2) ? 5 : 52) + draw(5)] = (uint8_t)draw(4);
    }
    size_t count = draw(30) == 29 ? (size_t)-1 : draw(6);
    SgfBoard next = sgf_board_next(any, BYTES(TEXTS), NUMBERS(PROPERTIES), NUMBERS(VALUES), first, count);
    REQUIRE(next.reserved == 0);
    answered(NEXT, any.number == 0 ? next.number : 0, MAY(23), 0);
    if (any.number != 0) {
        any.reserved = 0;
        REQUIRE(same_board(next, any));
    } else if (next.number == 0) {
        REQUIRE(next.columns == any.columns && next.rows == any.rows && next.black_on >= any.black_on && next.white_off >= any.white_off);
        for (uint32_t at = 0; at < SGF_POINT_PLACES; at++) {
            REQUIRE((at / 52 < any.columns && at % 52 < any.rows) || next.stones[at] == any.stones[at]);
        }
    } else {
        is_board(&next);
    }
    tell(NEXT, 0, next.black_on);
}

static void call(int what) {
    size_t k = draw(30) == 29 ? (size_t)-1 : draw((uint32_t)(counts.values % TEXT) + 2);
    lend(&lent[OUTS], draw(OUT), draw(4) == 3);
    remember_all();
    switch (what) {
    case WALK: walk(); break;
    case FITS: answered(FITS, sgf_fits(RECORD), MAY(19), 0); break;
    case VALUE: answered(VALUE, sgf_value(RECORD, k).number, MAY(19) | MAY(16), 0); break;
    case DISPLAY: display(k, draw(3)); break;
    case DISPLAY_VALUE: display_value(k, draw(3)); break;
    case GO_VALUE: go_value(k); break;
    case ENTRY: entry(); break;
    case SIMPLE_VALUE: simple_value(k); break;
    case SIMPLE_PROPERTY: simple_property(k); break;
    case GO_BY_RULE: go_by_rule(k); break;
    case SIZE: size(draw(8) == 7 ? k : k % 4); break;
    case TALLY: season(); break;
    case LINE: line(); break;
    case WRITE: write_text(); break;
    case SESSION: session(); break;
    case LOOKUP: lookup(k); break;
    case CORRECT: correct(k); break;
    case BLOCKS: blocks(); break;
    case ESCAPE: escape(); break;
    case SALVAGE: salvage(); break;
    case TAG: tag(); break;
    case NAMED: named(); break;
    case BOARD: board(draw(30) == 29 ? (size_t)-1 : draw((uint32_t)(counts.nodes % TEXT) + 2)); break;
    case NEXT: board_next(draw(30) == 29 ? (size_t)-1 : draw((uint32_t)(counts.properties % TEXT) + 2)); break;
    default: edit(k); break;
    }
}

static void step(void) {
    int what = READ;
    operations++;
    switch (draw(12)) {
    case 0: draw(8) == 7 ? damage() : read_text(); break;
    default: what = WALK + (int)draw(CALLS - WALK); break;
    }
    if (what == SESSION && draw(16) != 0) {
        what = EDIT;
    }
    if (what != READ) {
        call(what);
    }
}

static void begin(void) {
    if (lent[TREES].low == NULL) {
        for (int t = 0; t < TABLES; t++) {
            make_room(&lent[t], 4 * SGF_NODE_STRIDE * TEXT);
        }
        make_room(&lent[TEXTS], TEXT + ROOM);
        make_room(&lent[OUTS], OUT);
        make_room(&lent[NEWS], FEED);
        make_room(&lent[LISTS], 4 * (SGF_CHANGE_STRIDE * SGF_CHANGES_FOR(TEXT + ROOM) + 4));
        memset(states, 1, sizeof states);
        memset(first, 1, sizeof first);
        memset(last, 1, sizeof last);
    }
    read_text();
}

#ifdef FUZZER
int LLVMFuzzerTestOneInput(const uint8_t *data, size_t size) {
    size_t end = 0;
    while (end < size && end < TEXT && !(data[end] == 0xFF && end + 1 < size && data[end + 1] == 0)) {
        end++;
    }
    given_text = data;
    given_text_len = end;
    given = end + 2 < size ? data + end + 2 : data + size;
    given_len = (size_t)(data + size - given);
    begin();
    for (int what = WALK; what < EDIT; what++) {
        call(what);
    }
    while (given_len > 0) {
        step();
    }
    return 0;
}
#else
static long memory(void) {
    struct rusage usage;
    getrusage(RUSAGE_SELF, &usage);
    return usage.ru_maxrss;
}

int main(int argc, char **argv) {
    unsigned long wanted = argc > 1 ? strtoul(argv[1], NULL, 10) : 1000000;
    begin();
    while (operations < wanted / 10) {
        step();
    }
    long before = memory();
    while (operations < wanted) {
        step();
    }
    long after = memory();
    printf("soak: %lu operations, %lu accepted; refused", operations, accepted);
    for (int n = 1; n < NUMBERS_END; n++) {
        printf(" %d:%lu", n, refusals[n]);
    }
    printf("\nboards: %lu, %lu nodes along their lines; %lu after edits, of which %lu had changed", boards, steps_along, boards_fresh, boards_changed);
    printf("\nsessions: %lu, of %lu edits, undone and redone", sessions, undone);
    printf("\nfeeds applied: %lu, of %lu corrections", feeds, corrections);
    printf("\nsalvaged: %lu, with %lu changes", salvaged, changed);
    printf("\nmemory: %ld KB after a tenth of them, %ld KB at the end\n", before, after);
    return after > before;
}
#endif
