/* How much memory a box lends: prints the rows of the tables of docs/MEMORY.md, each of which examples/c/run looks for
 * there; and reads a text into rows as records have them in fact, lending more after a 14. */
#include "sgf_record.h"

#include <stdio.h>
#include <stdlib.h>
#include <string.h>

/* A number with commas. */
static const char *grouped(size_t n) {
    static char shown[16][32];
    static int at;
    char plain[32], *out = shown[at = (at + 1) % 16];
    int length = sprintf(plain, "%lu", (unsigned long)n);
    for (int i = 0; i < length; i++) {
        if (i > 0 && (length - i) % 3 == 0) {
            *out++ = ',';
        }
        *out++ = plain[i];
    }
    *out = '\0';
    return shown[at];
}

/* Tables of so many rows, in one piece of memory: those that any text of n bytes can need, or those that records have in
 * fact, times `more`. */
static SgfRecord lend(uint8_t *text, size_t room, size_t used, size_t more) {
    size_t n = room;
    SgfRecord r = {text, room, used, {0, 0, 0, 0}, NULL, 0, NULL, 0, NULL, 0, NULL, 0};
    r.trees_len = SGF_TREE_STRIDE * (n / 50 * more + 1);
    r.nodes_len = SGF_NODE_STRIDE * (n / 6 * more + 1);
    r.properties_len = SGF_PROPERTY_STRIDE * (n / 6 * more + 1);
    r.values_len = SGF_VALUE_STRIDE * (n / 4 * more + 1);
    uint32_t *numbers = calloc(r.trees_len + r.nodes_len + r.properties_len + r.values_len, sizeof *numbers);
    if (numbers == NULL) {
        exit(2);
    }
    r.trees = numbers;
    r.nodes = r.trees + r.trees_len;
    r.properties = r.nodes + r.nodes_len;
    r.values = r.properties + r.properties_len;
    return r;
}

/* Reads a text as a box does that begins with little and lends twice as much after each 14; how often it did. */
static int lent_more(const char *source, uint32_t *number) {
    static uint8_t text[4096];
    size_t used = strlen(source);
    int times = 0;
    memcpy(text, source, used);
    for (size_t more = 1;; more *= 2, times++) {
        SgfRecord r = lend(text, sizeof text / 16, used, more);
        *number = sgf_record_read(&r).number;
        free(r.trees);
        if (*number != SGF_NO_ROOM) {
            return times;
        }
    }
}

int main(void) {
    static const size_t lengths[] = {4096, 16384, 65536, 262144, 1048576};
    for (size_t i = 0; i < sizeof lengths / sizeof *lengths; i++) {
        size_t n = lengths[i];
        printf("| %s | %s | %s | %s | %s | %s | %s |\n", grouped(n), grouped(SGF_TREES_FOR(n)), grouped(SGF_NODES_FOR(n)), grouped(SGF_PROPERTIES_FOR(n)),
               grouped(SGF_VALUES_FOR(n)), grouped(4 * SGF_NUMBERS_FOR(n)),
               grouped(4 * (SGF_TREE_STRIDE * (n / 50) + SGF_NODE_STRIDE * (n / 6) + SGF_PROPERTY_STRIDE * (n / 6) + SGF_VALUE_STRIDE * (n / 4))));
    }
#define SIZE(type) printf("| `" #type "` | %s |\n", grouped(sizeof(type)))
    SIZE(SgfRecord);
    SIZE(SgfCounts);
    SIZE(SgfReading);
    SIZE(SgfEdit);
    SIZE(SgfSalvage);
    SIZE(SgfLine);
    SIZE(SgfGoValue);
    SIZE(SgfBoard);
    SIZE(SgfBlocks);
    SIZE(SgfBlock);
    SIZE(SgfClose);
    SIZE(SgfPart);
    uint32_t number;
    static char dense[201];
    dense[0] = '(';
    memset(dense + 1, ';', 198);
    dense[199] = ')';
    if (lent_more("(;GM[1]SZ[9];B[ee];W[cc])", &number) != 0 || number != SGF_ACCEPTED) {
        printf("memory: a record as most are needs more rows than were lent\n");
        return 1;
    }
    if (lent_more(dense, &number) != 3 || number != SGF_ACCEPTED) {
        printf("memory: nodes alone are not read after three times twice as many rows\n");
        return 1;
    }
    return 0;
}
