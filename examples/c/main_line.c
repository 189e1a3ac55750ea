/* Reads a record from a file, prints the moves of its main line, corrects its comments, and writes it.
 *
 *   ./library
 *   cc -Iinclude examples/c/main_line.c target/lib/libsgf.a -o target/main_line
 *   target/main_line examples/c/sample.sgf
 */
#include "sgf.h"

#include <stdio.h>
#include <stdlib.h>
#include <string.h>

/* A record: its text, the used bytes and rows, the tables. */
typedef struct {
    uint8_t *text;
    size_t room, used;
    SgfCounts counts;
    uint32_t *trees, *nodes, *properties, *values;
    size_t trees_len, nodes_len, properties_len, values_len;
} Record;

/* The arguments with which a record is lent. */
#define LENT(r) \
    (r)->text, (r)->room, (r)->used, (r)->counts, (r)->trees, (r)->trees_len, (r)->nodes, (r)->nodes_len, \
    (r)->properties, (r)->properties_len, (r)->values, (r)->values_len

static void fail(const char *what, uint32_t number, size_t place) {
    fprintf(stderr, "%s: refused %u at %zu\n", what, (unsigned)number, place);
    exit(1);
}

static void *lend(size_t bytes) {
    void *memory = malloc(bytes > 0 ? bytes : 1);
    if (memory == NULL) {
        fail("memory", SGF_NO_ROOM, 0);
    }
    return memory;
}

/* The file's bytes, with as much room again for edits. */
static void load(Record *r, const char *name) {
    FILE *file = fopen(name, "rb");
    if (file == NULL) {
        perror(name);
        exit(1);
    }
    r->room = 2 * SGF_TEXT_LIMIT;
    r->text = lend(r->room);
    r->used = fread(r->text, 1, r->room, file);
    fclose(file);
}

/* Lends tables that suffice for the text, and reads it. */
static void read_record(Record *r) {
    r->trees_len = SGF_TREE_STRIDE * SGF_TREES_FOR(r->used);
    r->nodes_len = SGF_NODE_STRIDE * SGF_NODES_FOR(r->used);
    r->properties_len = SGF_PROPERTY_STRIDE * SGF_PROPERTIES_FOR(r->used);
    r->values_len = SGF_VALUE_STRIDE * SGF_VALUES_FOR(r->used);
    r->trees = lend(r->trees_len * sizeof(uint32_t));
    r->nodes = lend(r->nodes_len * sizeof(uint32_t));
    r->properties = lend(r->properties_len * sizeof(uint32_t));
    r->values = lend(r->values_len * sizeof(uint32_t));
    SgfReading reading = sgf_read_strict(r->text, r->used, 0, r->trees, r->trees_len, r->nodes, r->nodes_len,
                                         r->properties, r->properties_len, r->values, r->values_len);
    if (reading.number != SGF_ACCEPTED) {
        fail("reading", reading.number, reading.place);
    }
    r->counts = reading.counts;
}

static char letter(uint32_t coordinate) {
    return (char)(coordinate < 26 ? 'a' + coordinate : 'A' + (coordinate - 26));
}

/* Whether property p has this identifier. What counts are the uppercase letters of what stands before its `[`: `C [x]`
 * and `Comment[x]` are comments too. */
static bool is_named(const Record *r, size_t p, const char *name) {
    const uint32_t *row = r->properties + p * SGF_PROPERTY_STRIDE;
    size_t from = row[SGF_PROPERTY_IDENTIFIER_START], to = row[SGF_PROPERTY_IDENTIFIER_END];
    return sgf_is_named(r->text + from, to - from, (const uint8_t *)name, strlen(name)) == 1;
}

/* The moves of one node of a tree with this rule. The tables come from a reading, so they fit. */
static void print_moves(const Record *r, const uint32_t *node, uint32_t rule) {
    size_t first = node[SGF_NODE_FIRST_PROPERTY];
    for (size_t p = first; p < first + node[SGF_NODE_PROPERTY_COUNT]; p++) {
        const uint32_t *row = r->properties + p * SGF_PROPERTY_STRIDE;
        const uint8_t *name = r->text + row[SGF_PROPERTY_IDENTIFIER_START];
        size_t length = row[SGF_PROPERTY_IDENTIFIER_END] - row[SGF_PROPERTY_IDENTIFIER_START];
        SgfGoValue value = sgf_go_by_rule(rule, name, length, r->text, r->used, r->values, r->values_len,
                                          row[SGF_PROPERTY_FIRST_VALUE], row[SGF_PROPERTY_VALUE_COUNT]);
        const char *colour = is_named(r, p, "B") ? "B" : "W";
        if (value.kind == SGF_MOVE) {
            printf("  %s %c%c\n", colour, letter(value.x), letter(value.y));
        } else if (value.kind == SGF_PASS) {
            printf("  %s passes\n", colour);
        }
    }
}

static const uint32_t *node_row(const Record *r, uint32_t k) {
    return r->nodes + k * SGF_NODE_STRIDE;
}

/* A remote's key "back to the fork": the nearest ancestor of a node with two or more children; NULL if there is none. */
static const uint32_t *fork_above(const Record *r, const uint32_t *node) {
    while (node[SGF_NODE_PARENT] != SGF_NONE) {
        node = node_row(r, node[SGF_NODE_PARENT]);
        if (node_row(r, node[SGF_NODE_FIRST_CHILD])[SGF_NODE_NEXT_SIBLING] != SGF_NONE) {
            return node;
        }
    }
    return NULL;
}

static void print_main_line(const Record *r) {
    for (size_t t = 0; t < r->counts.trees; t++) {
        const uint32_t *tree = r->trees + t * SGF_TREE_STRIDE;
        uint32_t rule = sgf_tree_size(r->text, r->used, r->trees, r->trees_len, r->nodes, r->nodes_len, r->properties,
                                      r->properties_len, r->values, r->values_len, t).rule;
        printf("game %zu\n", t + 1);
        const uint32_t *last = NULL;
        for (uint32_t k = tree[SGF_TREE_ROOT]; k != SGF_NONE; k = last[SGF_NODE_FIRST_CHILD]) {
            last = node_row(r, k);
            print_moves(r, last, rule);
        }
        const uint32_t *fork = fork_above(r, last);
        if (fork != NULL) {
            printf("  back to the fork: from depth %u to %u\n", (unsigned)last[SGF_NODE_DEPTH], (unsigned)fork[SGF_NODE_DEPTH]);
        }
    }
}

/* Shows the comment that is property p, and replaces `teh` in it. */
static void correct_comment(Record *r, size_t p) {
    size_t k = r->properties[p * SGF_PROPERTY_STRIDE + SGF_PROPERTY_FIRST_VALUE];
    SgfSpan span = sgf_value(LENT(r), k);
    size_t length = span.to - span.from;
    uint8_t *shown = lend(length);
    SgfDisplay display = sgf_display(LENT(r), k, SGF_TEXT, shown, length);
    printf("comment: %.*s\n", (int)display.length, (const char *)shown);
    uint8_t *corrected = lend(length);
    memcpy(corrected, r->text + span.from, length);
    for (size_t i = 0; i + 3 <= length; i++) {
        if (memcmp(corrected + i, "teh", 3) == 0) {
            memcpy(corrected + i, "the", 3);
        }
    }
    SgfEdit edit = sgf_edit(LENT(r), k, corrected, length);
    if (edit.number != SGF_ACCEPTED) {
        fail("edit", edit.number, edit.place);
    }
    r->used = edit.used;
    r->counts = edit.counts;
    free(shown);
    free(corrected);
}

/* Writes the record into just as many bytes as it needs. */
static void write_record(const Record *r) {
    size_t room = sgf_write_length(LENT(r)).length;
    uint8_t *out = lend(room);
    SgfWriting writing = sgf_write(LENT(r), out, room);
    if (writing.number != SGF_ACCEPTED) {
        fail("writing", writing.number, 0);
    }
    printf("%.*s\n", (int)writing.length, (const char *)out);
    free(out);
}

int main(int argc, char **argv) {
    if (argc != 2) {
        fprintf(stderr, "usage: main_line FILE\n");
        return 1;
    }
    if (sgf_version() != SGF_VERSION) {
        fprintf(stderr, "main_line: header and archive are of two releases\n");
        return 1;
    }
    Record r = {0};
    load(&r, argv[1]);
    read_record(&r);
    print_main_line(&r);
    for (size_t p = 0; p < r.counts.properties; p++) {
        if (is_named(&r, p, "C")) {
            correct_comment(&r, p);
        }
    }
    write_record(&r);
    return 0;
}
