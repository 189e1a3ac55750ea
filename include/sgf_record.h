/* A record in memory as one struct, and a sentence for each number: conveniences over sgf.h, in C and C++.
 *
 * Nothing here is in the archive, and nothing here is proved: each function only calls one of sgf.h with the fields of
 * the struct, and after an accepted call takes over what it gave back. A call of sgf.h itself is
 *     SgfSpan span = sgf_value(SGF_OF(record), k);
 * in place of thirteen arguments.
 */
#ifndef SGF_RECORD_H
#define SGF_RECORD_H

#include "sgf.h"

/* Lent memory: a text of which the first `used` bytes are the record's, the counts of used rows, the four tables. */
typedef struct {
    uint8_t *text;
    size_t text_len, used;
    SgfCounts counts;
    uint32_t *trees;
    size_t trees_len;
    uint32_t *nodes;
    size_t nodes_len;
    uint32_t *properties;
    size_t properties_len;
    uint32_t *values;
    size_t values_len;
} SgfRecord;

/* Its fields as the arguments that SGF_RECORD of sgf.h names. */
#define SGF_OF(record) \
    (record).text, (record).text_len, (record).used, (record).counts, (record).trees, (record).trees_len, \
    (record).nodes, (record).nodes_len, (record).properties, (record).properties_len, (record).values, (record).values_len

/* How many uint32_t suffice for the tables of any text of n bytes. */
#define SGF_NUMBERS_FOR(n) \
    (SGF_TREE_STRIDE * SGF_TREES_FOR(n) + SGF_NODE_STRIDE * SGF_NODES_FOR(n) + SGF_PROPERTY_STRIDE * SGF_PROPERTIES_FOR(n) \
     + SGF_VALUE_STRIDE * SGF_VALUES_FOR(n))

/* A record over a text's memory, of which `used` bytes are in use, and numbers that its tables share by the rows that a
 * text of n bytes can need: SGF_NUMBERS_FOR(n) of them. It has no rows yet. */
static inline SgfRecord sgf_record_in(uint8_t *text, size_t text_len, size_t used, uint32_t *numbers, size_t n) {
    SgfRecord record;
    record.text = text;
    record.text_len = text_len;
    record.used = used;
    record.counts.trees = record.counts.nodes = record.counts.properties = record.counts.values = 0;
    record.trees_len = SGF_TREE_STRIDE * SGF_TREES_FOR(n);
    record.nodes_len = SGF_NODE_STRIDE * SGF_NODES_FOR(n);
    record.properties_len = SGF_PROPERTY_STRIDE * SGF_PROPERTIES_FOR(n);
    record.values_len = SGF_VALUE_STRIDE * SGF_VALUES_FOR(n);
    record.trees = numbers;
    record.nodes = record.trees + record.trees_len;
    record.properties = record.nodes + record.nodes_len;
    record.values = record.properties + record.properties_len;
    return record;
}

/* sgf_read_strict of the used bytes; the counts are the record's then, and stay where it is refused. */
static inline SgfReading sgf_record_read(SgfRecord *record) {
    SgfReading reading = sgf_read_strict(record->text, record->used < record->text_len ? record->used : record->text_len, 0, record->trees,
                                         record->trees_len, record->nodes, record->nodes_len, record->properties,
                                         record->properties_len, record->values, record->values_len);
    if (reading.number == SGF_ACCEPTED) {
        record->counts = reading.counts;
    }
    return reading;
}

/* The same by sgf_read_lenient. */
static inline SgfReading sgf_record_read_lenient(SgfRecord *record) {
    SgfReading reading = sgf_read_lenient(record->text, record->used < record->text_len ? record->used : record->text_len, 0, record->trees,
                                          record->trees_len, record->nodes, record->nodes_len, record->properties,
                                          record->properties_len, record->values, record->values_len);
    if (reading.number == SGF_ACCEPTED) {
        record->counts = reading.counts;
    }
    return reading;
}

/* sgf_edit of value k; used length and counts are the record's then, and stay where it is refused. */
static inline SgfEdit sgf_record_edit(SgfRecord *record, size_t k, const uint8_t *replacement, size_t replacement_len) {
    SgfEdit edit = sgf_edit(SGF_OF(*record), k, replacement, replacement_len);
    if (edit.number == SGF_ACCEPTED) {
        record->used = edit.used;
        record->counts = edit.counts;
    }
    return edit;
}

/* sgf_correct by a feed; used length and counts are the record's then, and stay where it is refused. */
static inline SgfEdit sgf_record_correct(SgfRecord *record, const uint8_t *feed, size_t feed_len) {
    SgfEdit edit = sgf_correct(SGF_OF(*record), feed, feed_len);
    if (edit.number == SGF_ACCEPTED) {
        record->used = edit.used;
        record->counts = edit.counts;
    }
    return edit;
}

/* A sentence for a number given back, 0 to 24; of any other that it is none. */
static inline const char *sgf_message(uint32_t number) {
    switch (number) {
    case SGF_ACCEPTED: return "accepted";
    case SGF_TEXT_TOO_LONG: return "the text is longer than 1,048,576 bytes";
    case SGF_NOT_UTF8: return "these bytes are not UTF-8";
    case SGF_MISSING_PROPERTY_IDENTIFIER: return "the text ends before the `[` of this property";
    case SGF_UNEXPECTED_END_OF_PROPERTY_IDENTIFIER: return "this property identifier has a character that is not ASCII";
    case SGF_UNEXPECTED_END_OF_PROPERTY_VALUE: return "a value of this property has no closing `]`";
    case SGF_UNEXPECTED_GAME_TREE_END: return "there is a `)` without its `(`";
    case SGF_UNEXPECTED_END_OF_DATA: return "there is a `(` without its `)`, or a tree without a node";
    case SGF_NO_GAME_TREES: return "there is no game tree in the text";
    case SGF_TOO_DEEP: return "more than 1,024 trees are open at once";
    case SGF_UNEXPECTED_GAME_TREE_START: return "a tree begins with a tree instead of a node";
    case SGF_UNEXPECTED_PROPERTY: return "a property stands outside a node, or a second GM in the root";
    case SGF_INVALID_GAME_TYPE: return "the game type GM is not one number";
    case SGF_INVALID_FF4_PROPERTY: return "no longer given";
    case SGF_NO_ROOM: return "more memory is needed than was lent";
    case SGF_EMPTY_IDENTIFIER: return "a property identifier has no uppercase letter, so it cannot be written";
    case SGF_NO_SUCH_NUMBER: return "there is no value, property or tree of this number";
    case SGF_GAME_TYPE_FIXED: return "the game type GM cannot be edited";
    case SGF_NOT_CLOSED: return "the new value has an unescaped `]`, or ends within an escape";
    case SGF_NOT_FITTING: return "the tables do not fit the text";
    case SGF_AFTER_CLOSE: return "a block or a close after the close";
    case SGF_NO_GO_NODE: return "there is no such node, or it is not one of a Go tree";
    case SGF_INVALID_BOARD_SIZE: return "the board size SZ is repeated or invalid";
    case SGF_POINT_OFF_BOARD: return "a point is off the board, or in two setup properties of one node";
    case SGF_MALFORMED_FEED: return "the feed of corrections is malformed, or has bytes behind its end";
    default: return "no number of this library";
    }
}

#endif
