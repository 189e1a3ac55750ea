/* Undo: a stack of old bytes in one lent buffer, beside a record that is edited.
 *
 *   ./library
 *   cc -Iinclude examples/c/undo.c target/lib/libsgf.a -o target/undo
 *   target/undo
 *
 * Before each edit the value's raw bytes are kept. Putting them back in reverse order is accepted at every step and ends
 * with the first used text and rows: that is proved, so an undo here has no case for a refusal. What an undo would keep
 * are the bytes that it replaces: they go to a second stack, and a redo is an undo of the undo. */
#include "sgf.h"

#include <stdio.h>
#include <stdlib.h>
#include <string.h>

enum { ROOM = 160, ROWS = 32, KEPT = 192 };

/* A record: its text, the used bytes and rows, the tables. */
typedef struct {
    uint8_t text[ROOM];
    size_t used;
    SgfCounts counts;
    uint32_t trees[SGF_TREE_STRIDE * ROWS], nodes[SGF_NODE_STRIDE * ROWS], properties[SGF_PROPERTY_STRIDE * ROWS], values[SGF_VALUE_STRIDE * ROWS];
} Record;

/* Old bytes to undo with, from the front of one buffer, and those to redo with, from its end. Each entry has a head of
 * the value's number and the length of its bytes, which stands nearest to the middle, where an entry is taken off. */
typedef struct {
    uint8_t *bytes;
    size_t room, undo, redo, depth, ahead; /* bytes and entries of either stack */
} History;

typedef struct {
    uint32_t value, length;
} Head;

static void require(int holds, const char *what) {
    if (!holds) {
        fprintf(stderr, "undo: %s\n", what);
        exit(1);
    }
}

static SgfEdit edit(Record *r, size_t k, const uint8_t *bytes, size_t length) {
    SgfEdit e = sgf_edit(r->text, ROOM, r->used, r->counts, r->trees, SGF_TREE_STRIDE * ROWS, r->nodes, SGF_NODE_STRIDE * ROWS,
                         r->properties, SGF_PROPERTY_STRIDE * ROWS, r->values, SGF_VALUE_STRIDE * ROWS, k, bytes, length);
    if (e.number == SGF_ACCEPTED) {
        r->used = e.used;
        r->counts = e.counts;
    }
    return e;
}

static size_t size_of(const Record *r, size_t k) {
    return r->values[2 * k + 1] - r->values[2 * k];
}

/* Keeps the bytes of value k on the stack to undo with, or on the one to redo with. */
static bool keep(History *h, const Record *r, size_t k, bool to_redo) {
    Head head = {(uint32_t)k, (uint32_t)size_of(r, k)};
    size_t size = head.length + sizeof head;
    if (h->room - h->undo - h->redo < size) {
        return false;
    }
    uint8_t *at = to_redo ? h->bytes + h->room - h->redo - size : h->bytes + h->undo;
    memcpy(at + (to_redo ? sizeof head : 0), r->text + r->values[2 * k], head.length);
    memcpy(at + (to_redo ? 0 : head.length), &head, sizeof head);
    *(to_redo ? &h->redo : &h->undo) += size;
    *(to_redo ? &h->ahead : &h->depth) += 1;
    return true;
}

/* The entry that is taken off next. */
static const uint8_t *top(const History *h, bool of_redo, Head *head) {
    const uint8_t *at = of_redo ? h->bytes + h->room - h->redo : h->bytes + h->undo - sizeof *head;
    memcpy(head, at, sizeof *head);
    return of_redo ? at + sizeof *head : at - head->length;
}

static void take_off(History *h, bool of_redo, Head head) {
    *(of_redo ? &h->redo : &h->undo) -= head.length + sizeof head;
    *(of_redo ? &h->ahead : &h->depth) -= 1;
}

/* An edit that can be undone. 14 where the old bytes cannot be kept either: nothing is changed. */
static uint32_t set(History *h, Record *r, size_t k, const char *bytes) {
    bool known = k < r->counts.values;
    if (known && !keep(h, r, k, false)) {
        return SGF_NO_ROOM;
    }
    SgfEdit e = edit(r, k, (const uint8_t *)bytes, strlen(bytes));
    if (e.number == SGF_ACCEPTED) {
        h->redo = h->ahead = 0;
    } else if (known) {
        Head head;
        top(h, false, &head);
        take_off(h, false, head);
    }
    return e.number;
}

/* One step back, or forward again; false where there is none. Where an undo finds no room for the bytes to redo with, it
 * is made all the same, and nothing is ahead; a redo without room for the bytes to undo with is not made. */
static bool step(History *h, Record *r, bool forward) {
    if ((forward ? h->ahead : h->depth) == 0) {
        return false;
    }
    Head head;
    const uint8_t *bytes = top(h, forward, &head);
    if (!keep(h, r, head.value, !forward)) {
        if (forward) {
            return false;
        }
        h->redo = h->ahead = 0;
    }
    require(edit(r, head.value, bytes, head.length).number == SGF_ACCEPTED, "what was kept is refused");
    take_off(h, forward, head);
    return true;
}

static void read_record(Record *r, const char *text) {
    memset(r, 0, sizeof *r);
    r->used = strlen(text);
    memcpy(r->text, text, r->used);
    SgfReading reading = sgf_read_strict(r->text, r->used, 0, r->trees, SGF_TREE_STRIDE * ROWS, r->nodes, SGF_NODE_STRIDE * ROWS,
                                         r->properties, SGF_PROPERTY_STRIDE * ROWS, r->values, SGF_VALUE_STRIDE * ROWS);
    require(reading.number == SGF_ACCEPTED, "the text is refused");
    r->counts = reading.counts;
}

/* The used text and every number of the tables; what stands behind the used text is not compared. */
static bool same(const Record *a, const Record *b) {
    return a->used == b->used && memcmp(a->text, b->text, a->used) == 0 && memcmp(&a->counts, &b->counts, sizeof a->counts) == 0
        && memcmp(a->trees, b->trees, sizeof a->trees) == 0 && memcmp(a->nodes, b->nodes, sizeof a->nodes) == 0
        && memcmp(a->properties, b->properties, sizeof a->properties) == 0 && memcmp(a->values, b->values, sizeof a->values) == 0;
}

static void say(const char *what, const History *h, const Record *r) {
    printf("%-7s depth %zu, ahead %zu: %.*s\n", what, h->depth, h->ahead, (int)r->used, (const char *)r->text);
}

/* An edit of value 2, the name of Black, or of value 4, the comment; and the number that is to come. */
typedef struct {
    size_t value;
    const char *bytes;
    uint32_t number;
} Edit;

int main(void) {
    static const Edit edits[] = {
        {2, "", SGF_ACCEPTED},         {4, "White takes the centre [tengen\\].", SGF_ACCEPTED},
        {0, "3", SGF_GAME_TYPE_FIXED}, {2, "Cho", SGF_ACCEPTED},
        {9, "x", SGF_NO_SUCH_NUMBER},  {4, "open ]", SGF_NOT_CLOSED},
        {4, "", SGF_ACCEPTED},         {2, "Cho", SGF_ACCEPTED},
    };
    static Record record, states[8];
    static uint8_t kept[KEPT];
    History history = {kept, KEPT, 0, 0, 0, 0};
    read_record(&record, "(;GM[1]SZ[9]PB[Honinbo];W[ee]C[teh centre](;B[ec])(;B[ce]))");
    for (size_t i = 0; i < sizeof edits / sizeof edits[0]; i++) {
        Record before = record;
        size_t depth = history.depth;
        require(set(&history, &record, edits[i].value, edits[i].bytes) == edits[i].number, "another number");
        if (edits[i].number == SGF_ACCEPTED) {
            states[depth] = before;
            say("set", &history, &record);
        } else {
            require(same(&before, &record) && history.depth == depth, "a refusal changed something");
            printf("refused %u\n", (unsigned)edits[i].number);
        }
    }
    states[history.depth] = record;
    size_t last = history.depth;
    while (step(&history, &record, false)) {
        require(same(&record, &states[history.depth]), "not as it was");
        say("undo", &history, &record);
    }
    while (step(&history, &record, true)) {
        require(same(&record, &states[history.depth]), "not as it was");
        say("redo", &history, &record);
    }
    require(history.depth == last, "all is redone");
    step(&history, &record, false);
    step(&history, &record, false);
    require(set(&history, &record, 4, "another way") == SGF_ACCEPTED && history.ahead == 0, "a new edit ends what was ahead");
    say("set", &history, &record);
    /* without room for the old bytes nothing is changed */
    states[0] = record;
    while (set(&history, &record, 4, "another way") == SGF_ACCEPTED) {
    }
    require(same(&record, &states[0]), "kept without room");
    while (step(&history, &record, false)) {
    }
    read_record(&states[0], "(;GM[1]SZ[9]PB[Honinbo];W[ee]C[teh centre](;B[ec])(;B[ce]))");
    require(same(&record, &states[0]), "the first record again");
    say("undo", &history, &record);

    /* What does not come back: bytes behind the used text. A longer value wrote over them, and the undo set them to 0. */
    History none = {kept, KEPT, 0, 0, 0, 0};
    read_record(&record, "(;C[])");
    record.text[6] = '#';
    require(set(&none, &record, 0, "a") == SGF_ACCEPTED && step(&none, &record, false), "one edit, undone");
    printf("behind the used text: # became %u\n", record.text[6]);
    return 0;
}
