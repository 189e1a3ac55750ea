/* Salvage: out of a damaged record one that is accepted, and what was changed, with memory by counts.
 *
 *   ./library
 *   cc -Iinclude examples/c/salvage.c target/lib/libsgf.a -o target/salvage
 *   target/salvage
 *
 * The rows are those that sgf_count_lenient gives, the list has as many as these counts can need, and only the output is
 * guessed: a refusal leaves everything as it was, so it is lent twice as much and asked again, up to the longest text. */
#include "sgf_record.h"

#include <stdio.h>
#include <stdlib.h>
#include <string.h>

static const char *const KINDS[] = {"cut short", "given an empty root", "removed: no identifier", "spelled anew", "removed: GM", "not read"};

static void *rows(size_t many, size_t stride) {
    void *memory = calloc(many * stride + 1, sizeof(uint32_t));
    if (memory == NULL) {
        exit(2);
    }
    return memory;
}

/* Prints what salvage makes of a text; 0, or its number. */
static uint32_t salvage(const char *words) {
    const uint8_t *text = (const uint8_t *)words;
    size_t length = strlen(words), room = length + 3, changes = 0;
    SgfReading counted = sgf_count_lenient(text, length);
    if (counted.number != SGF_ACCEPTED) {
        return counted.number;
    }
    SgfCounts c = counted.counts;
    size_t most = 2 * c.trees + c.properties + 1;
    uint32_t *trees = rows(c.trees, SGF_TREE_STRIDE), *nodes = rows(c.nodes, SGF_NODE_STRIDE);
    uint32_t *properties = rows(c.properties, SGF_PROPERTY_STRIDE), *values = rows(c.values, SGF_VALUE_STRIDE);
    uint32_t *list = rows(most, SGF_CHANGE_STRIDE);
    uint8_t *out = NULL;
    SgfSalvage saved;
    do {
        out = realloc(out, room);
        if (out == NULL) {
            exit(2);
        }
        saved = sgf_salvage(text, length, trees, SGF_TREE_STRIDE * c.trees, nodes, SGF_NODE_STRIDE * c.nodes, properties,
                            SGF_PROPERTY_STRIDE * c.properties, values, SGF_VALUE_STRIDE * c.values, list,
                            SGF_CHANGE_STRIDE * most, out, room);
        room = 2 * room < SGF_TEXT_LIMIT ? 2 * room : SGF_TEXT_LIMIT;
    } while (saved.number == SGF_NO_ROOM);
    for (; saved.number == SGF_ACCEPTED && changes < saved.changes; changes++) {
        const uint32_t *row = list + SGF_CHANGE_STRIDE * changes;
        printf("  %s, number %lu, place %lu\n", KINDS[row[SGF_CHANGE_KIND]], (unsigned long)row[SGF_CHANGE_NUMBER],
               (unsigned long)row[SGF_CHANGE_PLACE]);
    }
    if (saved.number == SGF_ACCEPTED) {
        printf("  %.*s\n", (int)saved.length, (const char *)out);
    }
    free(trees), free(nodes), free(properties), free(values), free(list), free(out);
    return saved.number;
}

int main(void) {
    static const char *const TEXTS[] = {"(;GM[x]Black[dd](;[1]W[pp", "(;AB[aa:cc]", "(A[])", "\xff"};
    for (size_t k = 0; k < sizeof TEXTS / sizeof *TEXTS; k++) {
        printf("text %lu\n", (unsigned long)k);
        uint32_t number = salvage(TEXTS[k]);
        if (number != SGF_ACCEPTED) {
            printf("  refused %lu: %s\n", (unsigned long)number, sgf_message(number));
        }
    }
    return 0;
}
