/* How much stack each function takes: it is called on a stack of its own that was painted before, and what is no longer
 * as painted was used. No function recurses, and none has a frame whose size depends on its input, so texts that reach
 * every part show the most. Prints a line a function, and fails where one takes more than docs/MEMORY.md says. */
#define _XOPEN_SOURCE 700
#include "sgf.h"

#include <stdio.h>
#include <stdlib.h>
#include <string.h>
#include <ucontext.h>

enum { STACK = 1 << 16, ROOM = 4096, ROWS = 4096, PAINT = 0xA5 };

/* A record, and what is asked of it. The calls go through pointers, so that each can also be made of a function that
 * only says where its stack begins. */
static uint8_t text[ROOM], out[1 << 20];
static uint32_t trees[SGF_TREE_STRIDE * ROWS], nodes[SGF_NODE_STRIDE * ROWS], properties[SGF_PROPERTY_STRIDE * ROWS], values[SGF_VALUE_STRIDE * ROWS];
static size_t used, asked, room;
static uint32_t options;
static const char *replacement;
static SgfCounts counts;
#define TABLES trees, sizeof trees / 4, nodes, sizeof nodes / 4, properties, sizeof properties / 4, values, sizeof values / 4
#define RECORD text, ROOM, used, counts, TABLES

static SgfReading reading;
static SgfSpan span;
static SgfDisplay display;
static SgfGoValue go;
static SgfEntry entry;
static SgfSimple simple;
static SgfSize size;
static SgfWriting writing;
static SgfEdit edit;
static SgfTrim trim;
static SgfToken token;
static SgfValue value;
static uint32_t number;
static uint64_t tag;
static SgfBoard board;
static SgfPart part;
static SgfCheck check;
static SgfBlock block;
static SgfClose closing;

/* A feed that corrects the value asked for, or is damaged; the text taken in blocks up to its half, and to its end. */
static uint8_t feed[ROOM];
static size_t feed_len;
static uint32_t rows[SGF_TOKEN_STRIDE * ROWS];
static SgfBlocks half, all;
static SgfTally tally;
static SgfLine line;
static SgfWhy why;
static SgfSalvage salvage;
static uint32_t changes[SGF_CHANGE_STRIDE * ROWS];

static unsigned char stack[STACK];
static volatile uintptr_t begin;

/* A function of each kind that notes where its stack begins. */
#define NOTE(type, name, ...) \
    __attribute__((noinline)) static type name(__VA_ARGS__) { \
        volatile unsigned char here = 0; \
        static type answer; \
        begin = (uintptr_t)&here; \
        return answer; \
    }
#define TABLE_TYPES uint32_t *a, size_t b, uint32_t *c, size_t d, uint32_t *e, size_t f, uint32_t *g, size_t h
#pragma GCC diagnostic ignored "-Wunused-parameter"
NOTE(SgfReading, note_read_strict, const uint8_t *t, size_t n, uint32_t o, TABLE_TYPES)
NOTE(SgfReading, note_read_lenient, const uint8_t *t, size_t n, uint32_t o, TABLE_TYPES)
NOTE(SgfReading, note_count_strict, const uint8_t *t, size_t n)
NOTE(SgfReading, note_count_lenient, const uint8_t *t, size_t n)
NOTE(SgfWhy, note_why_strict, const uint8_t *t, size_t n)
NOTE(SgfWhy, note_why_lenient, const uint8_t *t, size_t n)
NOTE(uint32_t, note_fits, SGF_RECORD)
NOTE(SgfSpan, note_value, SGF_RECORD, size_t k)
NOTE(SgfDisplay, note_display, SGF_RECORD, size_t k, uint32_t kind, uint8_t *to, size_t to_len)
NOTE(SgfDisplay, note_display_value, uint32_t kind, const uint8_t *raw, size_t raw_len, uint8_t *to, size_t to_len)
NOTE(uint32_t, note_version, void)
NOTE(SgfGoValue, note_go_value, SGF_RECORD, size_t p)
NOTE(SgfEntry, note_entry, const uint8_t *i, size_t n)
NOTE(SgfSimple, note_simple_value, SGF_RECORD, size_t p)
NOTE(SgfSimple, note_simple_property, uint32_t rule, const uint8_t *i, size_t n, const uint8_t *t, size_t m, const uint32_t *v, size_t l, size_t first, size_t count)
NOTE(SgfGoValue, note_go_by_rule, uint32_t rule, const uint8_t *i, size_t n, const uint8_t *t, size_t m, const uint32_t *v, size_t l, size_t first, size_t count)
NOTE(SgfSize, note_size, SGF_RECORD, size_t tree)
NOTE(SgfSize, note_tree_size, const uint8_t *t, size_t n, const uint32_t *a, size_t b, const uint32_t *c, size_t d, const uint32_t *e, size_t f, const uint32_t *g, size_t h, size_t tree)
NOTE(SgfTally, note_tally, SGF_RECORD)
NOTE(SgfLine, note_line, SGF_RECORD, uint8_t *to, size_t to_len)
NOTE(SgfSalvage, note_salvage, const uint8_t *t, size_t n, uint32_t *r, size_t rl, uint32_t *d, size_t dl, uint32_t *p, size_t pl, uint32_t *v, size_t vl, uint32_t *c, size_t cl, uint8_t *o, size_t ol)
NOTE(SgfBoard, note_board, SGF_RECORD, size_t k)
NOTE(SgfBoard, note_board_next, SgfBoard on, const uint8_t *t, size_t n, const uint32_t *p, size_t m, const uint32_t *v, size_t l, size_t first, size_t count)
NOTE(SgfWriting, note_write, SGF_RECORD, uint8_t *to, size_t to_len)
NOTE(SgfWriting, note_write_length, SGF_RECORD)
NOTE(SgfEdit, note_edit, uint8_t *t, size_t n, size_t m, SgfCounts k, const uint32_t *a, size_t b, const uint32_t *c, size_t d, uint32_t *e, size_t f, uint32_t *g, size_t h, size_t i, const uint8_t *r, size_t l)
NOTE(SgfTrim, note_trim, const uint8_t *t, size_t n)
NOTE(SgfToken, note_token, const uint8_t *t, size_t n, size_t at)
NOTE(SgfValue, note_next_value, const uint8_t *t, size_t n, size_t at)
NOTE(SgfDisplay, note_escape, const uint8_t *t, size_t n, uint8_t *to, size_t to_len)
NOTE(SgfPart, note_corrected, SGF_RECORD, const uint8_t *f, size_t n, size_t k)
NOTE(SgfCheck, note_feed_check, SGF_RECORD, const uint8_t *f, size_t n)
NOTE(SgfPart, note_feed_find, const uint8_t *f, size_t n, size_t k)
NOTE(SgfEdit, note_correct, uint8_t *t, size_t n, size_t m, SgfCounts k, const uint32_t *a, size_t b, const uint32_t *c, size_t d, uint32_t *e, size_t f, uint32_t *g, size_t h, const uint8_t *r, size_t l)
NOTE(SgfWriting, note_feed_begin, size_t count, uint8_t *to, size_t to_len)
NOTE(SgfWriting, note_feed_add, size_t k, const uint8_t *b, size_t n, uint8_t *to, size_t to_len)
NOTE(SgfBlock, note_block, SgfBlocks state, const uint8_t *b, size_t n, uint32_t *r, size_t l)
NOTE(SgfClose, note_close, SgfBlocks state, uint32_t *r, size_t l)
NOTE(uint32_t, note_is_named, const uint8_t *i, size_t n, const uint8_t *w, size_t m)
NOTE(uint64_t, note_tag, const uint8_t *b, size_t n)

static int noting;
#define EITHER(name) (noting ? note_##name : sgf_##name)
static void call_read_strict(void) { reading = EITHER(read_strict)(text, used, options, TABLES); }
static void call_read_lenient(void) { reading = EITHER(read_lenient)(text, used, options, TABLES); }
static void call_count_strict(void) { reading = EITHER(count_strict)(text, used); }
static void call_count_lenient(void) { reading = EITHER(count_lenient)(text, used); }
static void call_why_strict(void) { why = EITHER(why_strict)(text, used); }
static void call_why_lenient(void) { why = EITHER(why_lenient)(text, used); }
static void call_salvage(void) { salvage = EITHER(salvage)(text, used, TABLES, changes, options == 2 ? 2 : sizeof changes / 4, out, room); }
static void call_fits(void) { number = EITHER(fits)(RECORD); }
static void call_value(void) { span = EITHER(value)(RECORD, asked); }
static void call_display(void) { display = EITHER(display)(RECORD, asked, options, out, room); }
static void call_display_value(void) { display = EITHER(display_value)(options, text, used, out, room); }
static void call_version(void) { number = EITHER(version)(); }
static void call_go_value(void) { go = EITHER(go_value)(RECORD, asked); }
static void call_go_by_rule(void) {
    const uint32_t *row = properties + asked * SGF_PROPERTY_STRIDE;
    go = EITHER(go_by_rule)(SGF_RULE_GO, text + row[0], row[1] - row[0], text, used, values, sizeof values / 4, row[2], row[3]);
}
static void call_entry(void) {
    const uint32_t *row = properties + asked * SGF_PROPERTY_STRIDE;
    entry = EITHER(entry)(text + row[0], row[1] - row[0]);
}
static void call_simple_value(void) { simple = EITHER(simple_value)(RECORD, asked); }
static void call_simple_property(void) {
    const uint32_t *row = properties + asked * SGF_PROPERTY_STRIDE;
    simple = EITHER(simple_property)(0, text + row[0], row[1] - row[0], text, used, values, sizeof values / 4, row[2], row[3]);
}
static void call_size(void) { size = EITHER(size)(RECORD, asked); }
static void call_tree_size(void) { size = EITHER(tree_size)(text, used, TABLES, asked); }
static void call_tally(void) { tally = EITHER(tally)(RECORD); }
static void call_line(void) { line = EITHER(line)(RECORD, out, room); }
static void call_board(void) { board = EITHER(board)(RECORD, asked); }
static void call_board_next(void) {
    const uint32_t *row = nodes + asked * SGF_NODE_STRIDE;
    memset(&board, 0, sizeof board);
    board.columns = 19, board.rows = 19, board.stones[1] = board.stones[SGF_POINT_PLACE(1, 0)] = SGF_WHITE;
    board.stones[0] = options & 1 ? SGF_EMPTY : SGF_BLACK; /* a stone without liberty: the whole board is swept */
    board = EITHER(board_next)(board, text, used, properties, sizeof properties / 4, values, sizeof values / 4, row[3], row[4]);
}
static void call_write(void) { writing = EITHER(write)(RECORD, out, room); }
static void call_write_length(void) { writing = EITHER(write_length)(RECORD); }
static void call_edit(void) { edit = EITHER(edit)(RECORD, asked, (const uint8_t *)replacement, strlen(replacement)); }
static void call_trim(void) { trim = EITHER(trim)(text, used); }
static void call_token(void) { token = EITHER(token)(text, used, asked); }
static void call_next_value(void) { value = EITHER(next_value)(text, used, asked); }
static void call_escape(void) { display = EITHER(escape)(text, used, out, room); }
static void call_corrected(void) { part = EITHER(corrected)(RECORD, feed, feed_len, asked); }
static void call_feed_check(void) { check = EITHER(feed_check)(RECORD, feed, feed_len); }
static void call_feed_find(void) { part = EITHER(feed_find)(feed, feed_len, asked); }
static void call_correct(void) { edit = EITHER(correct)(RECORD, feed, feed_len); }
static void call_feed_begin(void) { writing = EITHER(feed_begin)(asked << (options * 8), out, room); }
static void call_feed_add(void) { writing = EITHER(feed_add)(asked << (options * 8), text, used, out, room); }
static void call_block(void) { block = EITHER(block)(half, text + used / 2, used - used / 2, rows, options == 3 ? asked : sizeof rows / 4); }
static void call_close(void) { closing = EITHER(close)(options == 0 ? half : all, rows, options == 3 ? asked : sizeof rows / 4); }
static void call_is_named(void) { number = EITHER(is_named)(text, used, out, asked); }
static void call_tag(void) { tag = EITHER(tag)(text, used); }

static struct function {
    const char *name;
    void (*call)(void);
    size_t most, allowed; /* bytes */
} functions[] = {
    {"sgf_read_strict", call_read_strict, 0, 6144},
    {"sgf_read_lenient", call_read_lenient, 0, 6144},
    {"sgf_count_strict", call_count_strict, 0, 6144},
    {"sgf_count_lenient", call_count_lenient, 0, 6144},
    {"sgf_why_strict", call_why_strict, 0, 6144},
    {"sgf_why_lenient", call_why_lenient, 0, 6144},
    {"sgf_salvage", call_salvage, 0, 49152},
    {"sgf_fits", call_fits, 0, 1024},
    {"sgf_value", call_value, 0, 1024},
    {"sgf_display", call_display, 0, 1024},
    {"sgf_display_value", call_display_value, 0, 1024},
    {"sgf_version", call_version, 0, 512},
    {"sgf_go_value", call_go_value, 0, 12288},
    {"sgf_entry", call_entry, 0, 2048},
    {"sgf_simple_value", call_simple_value, 0, 2048},
    {"sgf_simple_property", call_simple_property, 0, 2048},
    {"sgf_go_by_rule", call_go_by_rule, 0, 9216},
    {"sgf_size", call_size, 0, 1024},
    {"sgf_tree_size", call_tree_size, 0, 1024},
    {"sgf_tally", call_tally, 0, 4096},
    {"sgf_line", call_line, 0, 10240},
    {"sgf_board", call_board, 0, 26624},
    {"sgf_board_next", call_board_next, 0, 23552},
    {"sgf_write", call_write, 0, 10240},
    {"sgf_write_length", call_write_length, 0, 10240},
    {"sgf_edit", call_edit, 0, 1024},
    {"sgf_trim", call_trim, 0, 512},
    {"sgf_token", call_token, 0, 512},
    {"sgf_next_value", call_next_value, 0, 512},
    {"sgf_escape", call_escape, 0, 512},
    {"sgf_corrected", call_corrected, 0, 1536},
    {"sgf_feed_check", call_feed_check, 0, 1536},
    {"sgf_feed_find", call_feed_find, 0, 512},
    {"sgf_correct", call_correct, 0, 1536},
    {"sgf_feed_begin", call_feed_begin, 0, 512},
    {"sgf_feed_add", call_feed_add, 0, 512},
    {"sgf_block", call_block, 0, 1536},
    {"sgf_close", call_close, 0, 1024},
    {"sgf_is_named", call_is_named, 0, 512},
    {"sgf_tag", call_tag, 0, 512},
};
enum { COUNT = sizeof functions / sizeof *functions };

/* The bounds are for both machines; all but those of the board, of sgf_salvage and sgf_line and from sgf_escape on were
 * measured on aarch64. On x86-64 sgf_go_value takes more than its bound, and has so many bytes more there. */
#ifdef __aarch64__
#define SPARE 0
#else
#define SPARE 2048
#endif

static ucontext_t here, there;

static void on_stack(void (*call)(void)) {
    getcontext(&there);
    there.uc_stack.ss_sp = stack;
    there.uc_stack.ss_size = STACK;
    there.uc_link = &here;
    makecontext(&there, call, 0);
    swapcontext(&here, &there);
}

/* Calls function i twice: to see where its stack begins, and how far it goes. */
static void measure(size_t i) {
    noting = 1;
    on_stack(functions[i].call);
    noting = 0;
    memset(stack, PAINT, STACK);
    on_stack(functions[i].call);
    const unsigned char *deepest = stack;
    while (*deepest == PAINT) {
        deepest++;
    }
    size_t taken = (begin - (uintptr_t)deepest + 95) / 64 * 64; /* begin lies up to 32 bytes within */
    functions[i].most = taken > functions[i].most ? taken : functions[i].most;
}

static void load(const char *source) {
    used = strlen(source);
    memcpy(text, source, used);
    reading = sgf_read_strict(text, used, 0, TABLES);
    counts = reading.counts;
}

/* Takes the text in blocks, and makes a feed: a correction of the value asked for, of two with the next, or damaged. */
static void prepare(void) {
    SgfBlocks none = {0};
    half = sgf_block(none, text, used / 2, rows, sizeof rows / 4).state;
    all = sgf_block(half, text + used / 2, used - used / 2, rows, sizeof rows / 4).state;
    memset(rows, 0, sizeof rows);
    size_t corrections = 1 + options % 2;
    feed_len = sgf_feed_begin(corrections, feed, sizeof feed).length;
    for (size_t i = 0; i < corrections; i++) {
        feed_len += sgf_feed_add(asked + i, (const uint8_t *)replacement, strlen(replacement), feed + feed_len, sizeof feed - feed_len).length;
    }
    feed_len -= options == 3;
}

int main(void) {
    static char deep[2 * 600 + 600 + 1], wide[700 + 1];
    static const char *texts[] = {
        "(;FF[4]GM[1]SZ[19]HA[2]AB[aa:cc][dd]AW[ZZ]TB[ba][aa]C[a\\]b\\\nc\r\n\td];B[ee]C [x];W[](;B[tt])(;Black[zz]N[\xC3\xA9]))(;GM[2];B[e4])",
        "\xC2\xA0(;HA[+012]HA[-1]AB[aa:ZZ];AB[x]TW[])\xE3\x80\x80",
        "(;SZ[19]AB[aa][ab][ba]AW[cc];W[bb];B[ac];W[ca];AE[aa]B[cd];W[bc];B[tt])", "(;SZ[2];B[aa];W[ba];W[ab];B[bb])", "(;AB[aa]AB[aa])", "(;SZ[3]AB[aa]AW[ab][ba];W[cc])",
        "(;[x])", "(;a[])", "", "(;B)", "(;\xC3)", "(;B\xC3\xA9[])", "(;A[x][y", ")", "(;", "((;))", "(B[aa])", "(;GM[x])", "(;GM[1]GM[2])", "(;())(", deep, wide,
    };
    static const char *const news[] = {"", "a longer value than it was", "]", "\\", "\xFF", "a\\]b"};
    for (int i = 0; i < 600; i++) {
        memcpy(deep + 2 * i, "(;", 2);
        deep[1200 + i] = ')';
    }
    memset(wide, 'x', 700);
    memcpy(wide, "(;C[", 4);
    memcpy(wide + 300, " \xC3\xA9\n\\]", 6);
    memcpy(wide + 698, "])", 2);
    for (size_t t = 0; t < sizeof texts / sizeof *texts; t++) {
        for (size_t i = 0; i < COUNT; i++) {
            for (asked = 0; asked < 24; asked++) {
                for (options = 0; options < 4; options++) {
                    load(texts[t]);
                    replacement = news[(asked + options) % 6];
                    room = options == 3 ? 3 : sizeof out;
                    prepare();
                    measure(i);
                }
            }
        }
    }
    int failed = 0;
    for (size_t i = 0; i < COUNT; i++) {
        printf("stack: %s %zu bytes\n", functions[i].name, functions[i].most);
        size_t bound = functions[i].allowed + (functions[i].call == call_go_value ? SPARE : 0);
        if (functions[i].most > bound) {
            printf("stack: that is more than %zu bytes\n", bound);
            failed = 1;
        }
    }
    (void)span, (void)entry, (void)simple, (void)display, (void)go, (void)writing, (void)edit, (void)trim, (void)token, (void)value, (void)number, (void)board;
    (void)part, (void)check, (void)block, (void)closing, (void)tag, (void)tally, (void)line, (void)why, (void)salvage;
    return failed;
}
