/* A record as one struct: read, a value shown, edited, written; a refusal as a sentence. Also that each number has one of
 * its own. */
#include "sgf_record.h"

#include <stdio.h>
#include <string.h>

enum { ROOM = 256 };

static int failures;

static void check(const char *what, bool holds) {
    if (!holds) {
        printf("record: %s\n", what);
        failures++;
    }
}

int main(void) {
    static uint8_t text[ROOM], out[ROOM];
    static uint32_t numbers[SGF_NUMBERS_FOR(ROOM)];
    const char *first = "(;AB[bb:bc]C[a note])", *last = "(;AB[bb][bc]C[an [other\\] one])";
    memcpy(text, first, strlen(first));
    SgfRecord record = sgf_record_in(text, ROOM, strlen(first), numbers, ROOM);
    check("read", sgf_record_read(&record).number == SGF_ACCEPTED && record.counts.values == 2);
    check("fits", sgf_fits(SGF_OF(record)) == SGF_ACCEPTED);
    SgfSpan span = sgf_value(SGF_OF(record), 1);
    check("value", span.number == SGF_ACCEPTED && memcmp(text + span.from, "a note", span.to - span.from) == 0);
    const char *bad = "]", *plain = "an [other] one", *good = "an [other\\] one";
    SgfEdit edit = sgf_record_edit(&record, 1, (const uint8_t *)bad, 1);
    check("a refusal changes nothing", edit.number == SGF_NOT_CLOSED && record.used == strlen(first) && record.counts.values == 2);
    printf("refused %u: %s\n", (unsigned)edit.number, sgf_message(edit.number));
    SgfDisplay escaped = sgf_escape((const uint8_t *)plain, strlen(plain), out, strlen(good) - 1);
    check("no room for an escape", escaped.number == SGF_NO_ROOM && escaped.length == 0 && out[0] == 0);
    escaped = sgf_escape((const uint8_t *)plain, strlen(plain), out, strlen(good));
    check("escaped", escaped.number == SGF_ACCEPTED && escaped.length == strlen(good) && memcmp(out, good, escaped.length) == 0);
    edit = sgf_record_edit(&record, 1, out, escaped.length);
    check("edit", edit.number == SGF_ACCEPTED && record.used == edit.used);
    SgfWriting writing = sgf_write(SGF_OF(record), out, sizeof out);
    check("write", writing.number == SGF_ACCEPTED && writing.length == strlen(last) && memcmp(out, last, writing.length) == 0);
    check("read again", sgf_record_read(&record).number == SGF_ACCEPTED);
    text[0] = ')';
    check("refused", sgf_record_read(&record).number == SGF_UNEXPECTED_GAME_TREE_END && record.counts.values == 2);
    check("leniently", sgf_record_read_lenient(&record).number == SGF_ACCEPTED && record.counts.nodes == 1);
    for (uint32_t n = 0; n <= SGF_MALFORMED_FEED + 1; n++) {
        for (uint32_t m = 0; m < n; m++) {
            check("each number has a sentence of its own", strcmp(sgf_message(n), sgf_message(m)) != 0);
        }
    }
    printf("record: %d failures\n", failures);
    return failures != 0;
}
