/* Tokens from blocks: the decided points, then texts cut at every place beside sgf_trim and sgf_token on the whole
 * text. Prints what does not hold, and how many checks there were. */
#include "sgf.h"

#include <stdio.h>
#include <string.h>

static int checks, failures;

#define CHECK(holds) \
    do { \
        checks++; \
        if (!(holds)) { \
            failures++; \
            printf("line %d: %s\n", __LINE__, #holds); \
        } \
    } while (0)

enum { ROWS = 64, LENT = ROWS * SGF_TOKEN_STRIDE };
static uint32_t rows[LENT];

/* The text in two blocks, closed. */
static SgfClose cut(const char *text, size_t len, size_t at, uint32_t *lent, size_t lent_len) {
    SgfBlocks state = {0};
    SgfBlock b = sgf_block(state, (const uint8_t *)text, at, lent, lent_len);
    b = sgf_block(b.state, (const uint8_t *)text + at, len - at, lent, lent_len);
    return sgf_close(b.state, lent, lent_len);
}

static SgfClose whole(const char *text) {
    return cut(text, strlen(text), 0, rows, LENT);
}

static int row(size_t k, uint32_t kind, uint32_t from, uint32_t to) {
    const uint32_t *r = rows + k * SGF_TOKEN_STRIDE;
    return r[SGF_TOKEN_KIND] == kind && r[SGF_TOKEN_FROM] == from && r[SGF_TOKEN_TO] == to;
}

/* The same by sgf_trim and sgf_token. */
static SgfClose reading(const char *text, size_t len, uint32_t *out) {
    SgfClose c;
    SgfTrim t = sgf_trim((const uint8_t *)text, len);
    size_t at = t.first;
    memset(&c, 0, sizeof c);
    memset(out, 0, LENT * sizeof *out);
    if (t.number != 0) {
        c.number = t.number;
        c.place = t.place;
        return c;
    }
    for (;;) {
        SgfToken k = sgf_token((const uint8_t *)text, t.last, at);
        if (k.kind == SGF_DONE) return c;
        if (k.kind == SGF_FAULT) {
            memset(out, 0, LENT * sizeof *out);
            c.number = k.number;
            c.place = k.from;
            c.tokens = 0;
            return c;
        }
        out[c.tokens * 3] = k.kind;
        out[c.tokens * 3 + 1] = (uint32_t)k.from;
        out[c.tokens * 3 + 2] = (uint32_t)k.to;
        c.tokens++;
        at = k.to;
    }
}

int main(void) {
    static const char *const texts[] = {
        "", " ", "(", ")", "(;B[aa];W[bb](;C[a\\]b])(;C[\\\\]))", " \t(;B[aa] )\n", "B", "B[", "B[a", "B[a]", "B[a] ", "B[a] [b] ;",
        "\xe3\x80\x80(;)\xe3\x80\x80", "B[a] \xe3\x80\x80", "B[a] \xe3\x80\x80;", "B\xc3\xa9", "B\xc3\xa9\xff", "(\xe3\x80", "\xff", "B[\xe3\x81\x82\xf0\x9f\x98\x80]",
        "B[a]\v", "B[a]\vx", "B[\xed\xa0\x80]", "\xc2\x85(\xc2\xa0", "C[" "0123456789abcdef0123456789abcdef0123456789abcdef0123456789abcdef" "\\]" "]",
    };
    uint32_t expected[LENT], few[4];
    SgfBlocks state = {0}, before;
    SgfBlock b;
    SgfClose c;
    size_t i, at, len;

    CHECK(sizeof(SgfBlocks) == 48);
    c = whole("");
    CHECK(c.number == 0 && c.tokens == 0);
    c = whole("(");
    CHECK(c.number == 0 && c.tokens == 1 && row(0, SGF_START, 0, 1) && row(1, 0, 0, 0));
    c = whole(")");
    CHECK(c.number == 0 && c.tokens == 1 && row(0, SGF_END, 0, 1));
    c = whole("B[a] \xe3\x80\x80");
    CHECK(c.number == 0 && c.tokens == 1 && row(0, SGF_PROPERTY, 0, 4));
    c = whole("B[a] \xe3\x80\x80;");
    CHECK(c.number == 4 && c.place == 5 && c.tokens == 0 && row(0, 0, 0, 0));
    c = whole("B\xc3\xa9\xff");
    CHECK(c.number == 2 && c.place == 3);
    c = whole("(\xe3\x80");
    CHECK(c.number == 2 && c.place == 1);
    c = whole("B[a]\v");
    CHECK(c.number == 0 && c.tokens == 1 && row(0, SGF_PROPERTY, 0, 4));
    c = whole("B[a]\vx");
    CHECK(c.number == 3 && c.place == 5);

    /* Closed by a refusal too; then 20, and nothing changes. */
    c = whole("\xff");
    CHECK(c.number == 2 && c.place == 0 && c.state.closed == 1);
    memset(rows, 7, sizeof rows);
    before = c.state;
    b = sgf_block(c.state, (const uint8_t *)"(", 1, rows, LENT);
    CHECK(b.number == 20 && memcmp(&b.state, &before, sizeof before) == 0);
    c = sgf_close(c.state, rows, LENT);
    CHECK(c.number == 20 && c.place == 0 && c.tokens == 0 && memcmp(&c.state, &before, sizeof before) == 0);
    for (i = 0; i < LENT; i++) CHECK(rows[i] == 0x07070707);

    /* One row, and a rest that is none. */
    few[0] = few[1] = few[2] = few[3] = 9;
    c = cut("()", 2, 1, few, 4);
    CHECK(c.number == 14 && c.tokens == 0 && few[0] == 0 && few[1] == 0 && few[2] == 0 && few[3] == 9);
    c = cut("(", 1, 1, few, 4);
    CHECK(c.number == 0 && c.tokens == 1 && few[0] == 1 && few[1] == 0 && few[2] == 1 && few[3] == 9);
    c = cut("(", 1, 1, NULL, 0);
    CHECK(c.number == 14);

    /* Beyond the limit: 1, whatever comes before it. */
    for (i = 0; i < 1048577; i += 1024) state = sgf_block(state, (const uint8_t *)"\xff", 1, rows, LENT).state;
    CHECK(state.total == 1025);
    state.total = SGF_TEXT_LIMIT;
    c = sgf_close(state, rows, LENT);
    CHECK(c.number == 2 && c.place == 0);
    state = sgf_block(state, (const uint8_t *)"((", 2, rows, LENT).state;
    c = sgf_close(state, rows, LENT);
    CHECK(state.total == SGF_TEXT_LIMIT + 1 && c.number == 1 && c.place == 0);

    /* Forged states have answers. */
    for (i = 0; i < 12; i++) {
        uint32_t numbers[12];
        memset(numbers, 0xff, sizeof numbers);
        numbers[i] = 2;
        numbers[11] = 0;
        memcpy(&state, numbers, sizeof state);
        b = sgf_block(state, (const uint8_t *)"](;B[aa])", 9, few, 4);
        CHECK(b.number == 0 && few[3] == 9);
        c = sgf_close(b.state, few, 4);
        CHECK(c.number != 20 && few[3] == 9 && c.state.closed == 1);
    }

    for (i = 0; i < sizeof texts / sizeof *texts; i++) {
        len = strlen(texts[i]);
        SgfClose r = reading(texts[i], len, expected);
        for (at = 0; at <= len; at++) {
            memset(rows, 5, sizeof rows);
            c = cut(texts[i], len, at, rows, LENT);
            CHECK(c.number == r.number && c.place == r.place && c.tokens == r.tokens && memcmp(rows, expected, sizeof rows) == 0);
        }
    }
    printf("blocks: %d checks, %d failed\n", checks, failures);
    return failures != 0;
}
