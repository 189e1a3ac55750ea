/* Ekimorepa: reading, writing and editing SGF (FF[4]) without a heap, from C and C++.
 *
 * Link with libsgf.a (`./library`). No function allocates, recurses, keeps state or calls back; all may run
 * in several threads at once as long as no memory that one of them writes is lent to another.
 *
 * Memory is lent by the caller. Each lent array is a pointer and a length in elements, in this order; a pointer with
 * length 0 is not followed. Memory that a call writes must not overlap any other that it is lent. A lent text may
 * hold any bytes and a lent table any numbers: every call has an answer, and none reads or writes beyond what is lent.
 *
 * A reading fills four tables of uint32_t, row behind row, numbered from 0 in the order of the text:
 *   tree      root node, game type
 *   node      parent, first child, next sibling, first property, property count, depth
 *   property  identifier start, identifier end, first value, value count
 *   value     start, end: what stands between its brackets
 * Starts and ends count bytes of the text, end excluded. "None" is SGF_NONE. So the raw bytes of value k are
 * text + values[2 * k] up to text + values[2 * k + 1]. An identifier's span is raw too, any ASCII before the `[`: the
 * property's name is the uppercase letters of it, `WB` of `White;B`.
 *
 * Every answer but SgfValue, SgfEntry, sgf_is_named, the tag and the version has a number: SGF_ACCEPTED, or why the call
 * is refused. A refusal leaves every lent byte and number as it was, and its counts, lengths and spans are 0 (SgfToken's
 * are its token's start); so is its place, but for numbers 2 to 5 and in SgfWhy. After acceptance, what lies behind the
 * counts given back stays as well, except for the bytes that sgf_edit and sgf_correct set to 0. Fields called `reserved`
 * are always 0.
 *
 * One exception. Rows lent to sgf_block and sgf_close are working room until the close. After a close that is accepted
 * the rows behind its count are 0, after one that is refused all rows; only number 20 leaves them as they were.
 *
 * Stack, in bytes, on x86-64: sgf_salvage 41,664, sgf_board 25,792, sgf_board_next 22,528, sgf_go_value 11,264,
 * sgf_line 6,400, sgf_write 6,336, sgf_write_length 6,144, sgf_go_by_rule 5,632, sgf_read_strict and sgf_read_lenient
 * 5,120, those that count rows or say why at most 4,800, each other below 1,024. docs/MEMORY.md has each function's bound,
 * which examples/c/stack.c tests.
 */
#ifndef SGF_H
#define SGF_H

#include <stdbool.h>
#include <stddef.h>
#include <stdint.h>

/* The version of this header; sgf_version() is that of the archive, equal where both are of one release. */
#define SGF_VERSION_MAJOR 0
#define SGF_VERSION_MINOR 11
#define SGF_VERSION_PATCH 0
#define SGF_VERSION_STRING "0.11.0"
#define SGF_VERSION (SGF_VERSION_MAJOR * UINT32_C(65536) + SGF_VERSION_MINOR * UINT32_C(256) + SGF_VERSION_PATCH)

#ifdef __cplusplus
extern "C" {
#endif

/* The version of the archive: major * 65536 + minor * 256 + patch. */
uint32_t sgf_version(void);

/* Numbers given back. The names of 3 to 8 and 10 to 13 are those of the Rust crate sgf-parse. 13 is given no more. */
enum {
    SGF_ACCEPTED = 0,
    SGF_TEXT_TOO_LONG = 1,                          /* more than SGF_TEXT_LIMIT bytes */
    SGF_NOT_UTF8 = 2,                               /* place: the start of the first bad sequence */
    SGF_MISSING_PROPERTY_IDENTIFIER = 3,            /* the text ends before `[`; place: the start of the identifier */
    SGF_UNEXPECTED_END_OF_PROPERTY_IDENTIFIER = 4,  /* a character that is not ASCII before `[`; place: as for 3 */
    SGF_UNEXPECTED_END_OF_PROPERTY_VALUE = 5,       /* a value does not close; place: the start of its property */
    SGF_UNEXPECTED_GAME_TREE_END = 6,               /* a `)` without its `(` */
    SGF_UNEXPECTED_END_OF_DATA = 7,                 /* a `(` without its `)`, or a tree without a node */
    SGF_NO_GAME_TREES = 8,                          /* neither `(` nor `)` */
    SGF_TOO_DEEP = 9,                               /* more than SGF_DEPTH_LIMIT trees open at once */
    SGF_UNEXPECTED_GAME_TREE_START = 10,            /* a `(` where no node can follow yet (see below) */
    SGF_UNEXPECTED_PROPERTY = 11,                   /* a property not directly behind a node; a second GM (see below) */
    SGF_INVALID_GAME_TYPE = 12,                     /* GM (see below) without one value, or no signed 32-bit number */
    SGF_INVALID_FF4_PROPERTY = 13,                  /* retired: no longer given */
    SGF_NO_ROOM = 14,                               /* needed rows or bytes exceed those lent */
    SGF_EMPTY_IDENTIFIER = 15,                      /* writing: an identifier has no uppercase letter */
    SGF_NO_SUCH_NUMBER = 16,                        /* value, property or tree number not below the count */
    SGF_GAME_TYPE_FIXED = 17,                       /* edit, corrections: the value of a GM */
    SGF_NOT_CLOSED = 18,                            /* edit, corrections: an unescaped `]`, or a `\` left open */
    SGF_NOT_FITTING = 19,                           /* the tables do not fit the text */
    SGF_AFTER_CLOSE = 20,                           /* blocks: a block or a close after the close */
    SGF_NO_GO_NODE = 21,                            /* board: no such node, or not one of a Go tree */
    SGF_INVALID_BOARD_SIZE = 22,                    /* board: SZ is repeated or invalid */
    SGF_POINT_OFF_BOARD = 23,                       /* board: a point off it, or in two setup properties of one node */
    SGF_MALFORMED_FEED = 24                         /* corrections: a feed not in its form, or bytes behind its end */
};
/* 10: a `(` in a tree that has no node of its own yet, where the node that the tree hangs from has no child yet, or
 * there is no such node: `((;))`, `(;((;)))` and `(;(;);((;)))` are 10, `(;(;)((;)))` is accepted.
 * A tree's game type is taken from the properties that directly follow its second token, as a rule the root's: a GM
 * elsewhere is neither 11 nor 12 (`(;GM[1];GM[x])` is accepted). GM is that by its raw identifier, exactly `GM`, here
 * and for 17: `(;GM [x])` is accepted, and Go. Tokens behind the last tree's end are dropped: `(;)[]` is accepted. */

/* Limits, and "none" in a row. */
#define SGF_TEXT_LIMIT 1048576
#define SGF_DEPTH_LIMIT 1024
#define SGF_NONE UINT32_C(4294967295)

/* Numbers a row of each table, and their places in it. A node row has 6 numbers, up to version 0.6.0 it had 5: write
 * SGF_NODE_STRIDE, lend 6 numbers a node, compile anew, and test at start that sgf_version() is SGF_VERSION. Tables
 * that an older library filled are not to be kept, read the text again: lent as they are, they are SGF_NOT_FITTING, but
 * for a record of one node with a 0 behind its row; no memory is harmed. */
enum { SGF_TREE_ROOT = 0, SGF_TREE_GAME_TYPE = 1, SGF_TREE_STRIDE = 2 };
enum {
    SGF_NODE_PARENT = 0,
    SGF_NODE_FIRST_CHILD = 1,
    SGF_NODE_NEXT_SIBLING = 2,
    SGF_NODE_FIRST_PROPERTY = 3,
    SGF_NODE_PROPERTY_COUNT = 4,
    SGF_NODE_DEPTH = 5, /* distance from the root, 0 at a root; not the nesting that SGF_DEPTH_LIMIT bounds */
    SGF_NODE_STRIDE = 6
};
enum {
    SGF_PROPERTY_IDENTIFIER_START = 0,
    SGF_PROPERTY_IDENTIFIER_END = 1,
    SGF_PROPERTY_FIRST_VALUE = 2,
    SGF_PROPERTY_VALUE_COUNT = 3,
    SGF_PROPERTY_STRIDE = 4
};
enum { SGF_VALUE_START = 0, SGF_VALUE_END = 1, SGF_VALUE_STRIDE = 2 };

/* Game types of a tree. */
enum { SGF_GO = 0, SGF_UNKNOWN_GAME = 1 };

/* Bits of the settings that a box profile stores. Both switches are retired: they change no reading, and those that are
 * set come back in `ignored` of the answer. Whether a reading is strict or lenient is its name's, sgf_read_strict or
 * sgf_read_lenient. SGF_KEEP_IDENTIFIERS is the old name of SGF_IGNORED_CONVERSION. */
enum { SGF_IGNORED_LENIENCY = 1, SGF_IGNORED_CONVERSION = 2, SGF_KEEP_IDENTIFIERS = SGF_IGNORED_CONVERSION };

/* Rows that suffice for the reading of any text of n bytes, strict or lenient: times the stride, numbers to lend.
 * That they suffice is proved. With fewer rows a reading may answer SGF_NO_ROOM, and nothing worse: double them then
 * until it is accepted, or lend these. Properties and values can be 0: mind arrays of length 0, and malloc(0). */
#define SGF_TREES_FOR(n) ((n) < 2 ? (size_t)1 : ((size_t)(n) + 1) / 2)
#define SGF_NODES_FOR(n) ((n) < 2 ? (size_t)1 : (size_t)(n)-1)
#define SGF_PROPERTIES_FOR(n) ((n) < 1 ? (size_t)0 : ((size_t)(n)-1) / 3)
#define SGF_VALUES_FOR(n) ((n) < 2 ? (size_t)0 : ((size_t)(n)-2) / 2)

/* ---- Reading ---------------------------------------------------------------------------------------------- */

/* Used rows of each table. */
typedef struct {
    size_t trees, nodes, properties, values;
} SgfCounts;

/* Number 0 and the used rows of each table; or the number of a refusal and its place. `ignored`, on refusals too, has the
 * bits of the retired switches that the settings have: settings % 4. */
typedef struct {
    uint32_t number, ignored;
    size_t place;
    SgfCounts counts;
} SgfReading;

/* sgf_read is gone: a flag chose between these two, and the wrong one was taken unseen. */

/* Reads a text into the lent tables, strictly. Numbers, in this order: 1; 2; 3 to 5, the first in the text; 6; 7; 8; 9;
 * then tree by tree 11 and 12 for its game type, 10, 11 and 7 for the tree; 14. No bit of `settings`, the number that a
 * box profile stores, changes a reading; those of the two retired switches that are set come back in `ignored`. */
SgfReading sgf_read_strict(const uint8_t *text, size_t text_len, uint32_t settings,
                           uint32_t *trees, size_t trees_len, uint32_t *nodes, size_t nodes_len,
                           uint32_t *properties, size_t properties_len, uint32_t *values, size_t values_len);

/* The same, leniently: what stands before the first fault of a token (3 to 5) or `)` without its `(`, and stands in a
 * tree. A tree is left at a fault of its own (10, 11), and the next one read; a wrong GM (11, 12) is taken for Go; a
 * tree without a node has one empty node, and a text without a tree, as "", is one such tree. Nothing says that
 * something was left out: to know it, read strictly. What is accepted strictly is accepted leniently, with the same
 * rows. Numbers: 1, 2, 9, 14 and no other. */
SgfReading sgf_read_lenient(const uint8_t *text, size_t text_len, uint32_t settings,
                            uint32_t *trees, size_t trees_len, uint32_t *nodes, size_t nodes_len,
                            uint32_t *properties, size_t properties_len, uint32_t *values, size_t values_len);

/* How many rows such a reading needs, without lent tables: what sgf_read_strict and sgf_read_lenient answer where enough
 * rows are lent, so that the counts are the rows to lend, times the stride. Numbers as theirs, but 14; `ignored` is 0. */
SgfReading sgf_count_strict(const uint8_t *text, size_t text_len);
SgfReading sgf_count_lenient(const uint8_t *text, size_t text_len);

/* Why a text is refused: a fact of the text, numbered in the order of the refusals' numbers; in `detail` what stands
 * behind the first semicolon, else 0. Slices are numbered from 0: a slice goes up to the `)` that closes a tree's first
 * `(`. Nodes are numbered as in the table. */
enum {
    SGF_WHY_ACCEPTED = 0,
    SGF_WHY_LENGTH = 1,       /* 1; the text's bytes */
    SGF_WHY_BAD_SEQUENCE = 2, /* 2 */
    SGF_WHY_NO_BRACKET = 3,   /* 3; where the scan of the identifier stops: the end of what trimming keeps */
    SGF_WHY_FOREIGN = 4,      /* 4; where it stops: the first byte that is not ASCII */
    SGF_WHY_NOT_CLOSED = 5,   /* 5; where the scan of the value stops: the end of what trimming keeps */
    SGF_WHY_END_BEYOND = 6,   /* 6: the `)` at the place closes nothing */
    SGF_WHY_STAYS_OPEN = 7,   /* 7; how many trees stay open, of the slice whose first token is at the place */
    SGF_WHY_NO_NODE = 8,      /* 7; the slice, which starts at the place and has no node */
    SGF_WHY_NO_END = 9,       /* 8 */
    SGF_WHY_TOO_DEEP = 10,    /* 9: the first `(` beyond SGF_DEPTH_LIMIT */
    SGF_WHY_EMPTY_LIST = 11,  /* 10; the node in whose list no node stands yet, SGF_NONE for the tree's own */
    SGF_WHY_SECOND_GM = 12,   /* 11; the slice; the place is the second GM's */
    SGF_WHY_STRAY = 13,       /* 11: the property at the place is not directly behind a node or its properties */
    SGF_WHY_GM_VALUES = 14,   /* 12; how many values the GM at the place has */
    SGF_WHY_GM_NUMBER = 15    /* 12: the one value of the GM at the place is no signed 32-bit number */
};

/* Number 0, the used rows, and the place of the first token, failing or not, that stands in no slice, or text_len; or the
 * number of a refusal, its fact, the place of the token to blame, and the number in the fact. Other than a reading's
 * place it is told for every number but 1 and 8. */
typedef struct {
    uint32_t number, fact;
    size_t place, detail;
    SgfCounts counts;
} SgfWhy;

/* Why a reading of the text is refused, or where it ended. No tables are lent; 14 is not explained. */
SgfWhy sgf_why_strict(const uint8_t *text, size_t text_len);
SgfWhy sgf_why_lenient(const uint8_t *text, size_t text_len);

/* ---- Salvage ----------------------------------------------------------------------------------------------- */

/* What salvage changed. Trees and properties have the numbers of the lenient reading, places count bytes of the text. */
enum {
    SGF_TREE_CUT = 0,         /* tree, and the place from which it was not read */
    SGF_EMPTY_ROOT = 1,       /* tree: it had no node, and was given an empty root */
    SGF_NAMELESS_REMOVED = 2, /* property: its identifier has no uppercase letter */
    SGF_SPELLED_ANEW = 3,     /* property: its identifier is its uppercase letters now */
    SGF_GM_REMOVED = 4,       /* property: a root's GM, where they are not one with one signed 32-bit number */
    SGF_TAIL_DROPPED = 5      /* the place from which nothing was read, and which stands in no tree */
};

/* A row of the list: a kind, the number of a tree or a property, and a place; 0 where the kind has none. */
enum { SGF_CHANGE_KIND = 0, SGF_CHANGE_NUMBER = 1, SGF_CHANGE_PLACE = 2, SGF_CHANGE_STRIDE = 3 };

/* Rows of the list that suffice for any text of n bytes; with the counts of sgf_count_lenient 2 * trees + properties + 1
 * suffice. */
#define SGF_CHANGES_FOR(n) (2 * SGF_TREES_FOR(n) + SGF_PROPERTIES_FOR(n) + 1)

/* A number and a place; how many bytes and changes were written, and the used rows of the tables. */
typedef struct {
    uint32_t number, reserved;
    size_t place, length, changes;
    SgfCounts counts;
} SgfSalvage;

/* Reads a text leniently into the tables, writes to `out` a text that sgf_read_strict accepts, and to `changes` what was
 * changed: tree by tree an empty root, its properties by number, a cut; at the end the tail. Each tree is written by the
 * game type that its kept GM gives, Go if none. Not listed are ends that are added, another form of the values, and a
 * game type that changes with nothing removed. Salvaged again the result stays as it is, with an empty list.
 * Numbers: 1, 2, 9 of the text, then 1 and 9 of the result, then one 14 for tables, list and output together. All is
 * decided before anything is written. After 0 the tables hold the lenient reading, whose numbers the changes name.
 * sgf_count_lenient gives 1 and 9 where they are the text's own, and the counts of the tables after 14.
 * Memory: beside the tables SGF_CHANGES_FOR(n) rows of the list and up to SGF_TEXT_LIMIT bytes of output; with less it
 * may be 14. With tables by sgf_count_lenient and such a list only the output can lack then: examples/c/salvage.c. It is
 * meant for an archive, not for a box. */
SgfSalvage sgf_salvage(const uint8_t *text, size_t text_len, uint32_t *trees, size_t trees_len,
                       uint32_t *nodes, size_t nodes_len, uint32_t *properties, size_t properties_len,
                       uint32_t *values, size_t values_len, uint32_t *changes, size_t changes_len,
                       uint8_t *out, size_t out_len);

/* ---- Over a record in memory ------------------------------------------------------------------------------ */

/* Each function below with SGF_RECORD takes a text of which the first `used` bytes are the record's, the counts of used rows and
 * the four tables. Whatever made them, a call first checks that they fit one another, in time linear in text and
 * tables, and answers 19 if they do not. Tables that a reading or sgf_edit accepted do fit their text. text_len may
 * exceed SGF_TEXT_LIMIT, used may not; used above text_len is 19. */
#define SGF_RECORD \
    const uint8_t *text, size_t text_len, size_t used, SgfCounts counts, \
    const uint32_t *trees, size_t trees_len, const uint32_t *nodes, size_t nodes_len, \
    const uint32_t *properties, size_t properties_len, const uint32_t *values, size_t values_len

/* 0 where the tables fit the text, else 19. */
uint32_t sgf_fits(SGF_RECORD);

/* A number, and the span of a value of a record, from its row: what stands between its brackets. (SgfValue, below, is a
 * value found in a text without tables.) */
typedef struct {
    uint32_t number, reserved;
    size_t from, to;
} SgfSpan;

/* The span of value k of a record: values are numbered from 0 in the order of the text. Numbers: 19, 16. Without
 * tables, sgf_next_value finds the values of a property one after the other. */
SgfSpan sgf_value(SGF_RECORD, size_t k);

/* A number, and how many bytes were written. */
typedef struct {
    uint32_t number, reserved;
    size_t length;
} SgfDisplay;

/* How a value is displayed: white space as spaces but behind a backslash that was itself escaped, escapes
 * resolved; in SimpleText line breaks become spaces too.
 * Escapes are resolved twice, as sgf-parse does, so a literal backslash is lost: for editing start from the raw value,
 * not from its display. */
enum { SGF_TEXT = 0, SGF_SIMPLE_TEXT = 1 }; /* any other kind is SGF_SIMPLE_TEXT */

/* Displays value k in `out`. No display is longer than the raw value. Numbers: 19, 16, 14. */
SgfDisplay sgf_display(SGF_RECORD, size_t k, uint32_t kind, uint8_t *out, size_t out_len);

/* The same of one raw value, as it stands between its brackets, without a record and its check. The number is 0, or 14
 * where the display exceeds out_len; never 14 where out_len is at least raw_len. */
SgfDisplay sgf_display_value(uint32_t kind, const uint8_t *raw, size_t raw_len, uint8_t *out, size_t out_len);

/* Kinds of Go value. */
enum {
    SGF_OTHER = 0,    /* not one of B, W, HA, AB, AW, AE, TB, TW, or not in a Go tree */
    SGF_INVALID = 1,  /* one of them, with values that it cannot have */
    SGF_PASS = 2,     /* B, W: an empty value, or `tt` where that is a pass */
    SGF_MOVE = 3,     /* B, W: a point: x, the column from the left, and y, the row from the top, each 0 to 51 */
    SGF_HANDICAP = 4, /* HA: at least 2, in handicap */
    SGF_POINTS = 5    /* AB, AW, AE, TB, TW: a set of points, in marks */
};

/* Points of a set, and a point's place among the marks. */
#define SGF_POINT_PLACES 2704
#define SGF_POINT_PLACE(x, y) (52 * (x) + (y))

/* A number and a Go value; what its kind does not name is 0 or false. The move `tt` is a pass where the tree's root has
 * no SZ, or one valid SZ with both sides at most 19; else it is the point (19, 19). In a list it is always that point. */
typedef struct {
    uint32_t number, kind, x, y;
    uint64_t handicap;
    bool marks[SGF_POINT_PLACES];
} SgfGoValue;

/* The Go value of property p. Numbers: 19, 16; the kind is then SGF_OTHER. */
SgfGoValue sgf_go_value(SGF_RECORD, size_t p);

/* The same of one property without the check, for callers whose tables are known to fit: the rule of its tree, which
 * sgf_tree_size says (any number but SGF_RULE_GO and SGF_RULE_GO_LARGE is another game), its raw identifier, and its values, `count` rows of the value table from row `first` on. The number is 0. Rows that
 * do not fit do no harm: a row that is not there is an empty value, a span is cut at the end of the text. With count
 * 0, which no text and no tables that fit can have, AB, AW, AE, TB and TW are valid sets without a point, B, W and HA
 * invalid. */
SgfGoValue sgf_go_by_rule(uint32_t rule, const uint8_t *identifier, size_t identifier_len,
                          const uint8_t *text, size_t text_len, const uint32_t *values, size_t values_len,
                          size_t first, size_t count);

/* A number, and how many bytes were written. */
typedef struct {
    uint32_t number, reserved;
    size_t length;
} SgfWriting;

/* Writes the record to `out`: identifiers as their uppercase letters, moves, handicaps and point sets in one fixed
 * form, everything else by its raw bytes. Numbers: 19, 15, 14. A writing can be longer than its text (the rectangle
 * in `(;AB[aa:ZZ])` is 2,704 points): ask sgf_write_length for out_len, or after 14 double it until it is accepted. */
SgfWriting sgf_write(SGF_RECORD, uint8_t *out, size_t out_len);

/* The length of that writing, without an output: with an out_len of it or more sgf_write is accepted and writes so many
 * bytes, with less it is 14. Numbers, those that sgf_write gives whatever it is lent: 19, 15 (and 14 for a writing of
 * 2^64 - 1 bytes or more, which no memory holds). It does all that sgf_write does before its first byte. */
SgfWriting sgf_write_length(SGF_RECORD);

/* A number and a place, and the used bytes and rows from now on. */
typedef struct {
    uint32_t number, reserved;
    size_t place, used;
    SgfCounts counts;
} SgfEdit;

/* Replaces value k by new bytes: a raw value, which of plain text has a `\` before each `\` and `]`. Tables that fit
 * stay fitting, and those of a strict reading, after any run of edits, are what a fresh strict reading of the new text
 * gives. Writes the text from the value on and moves the rows behind it; where the text became shorter, the bytes
 * between the new and the old used length become 0. Numbers: 19, 16, 17, 2 (place: in the new value), 18, 1, 14 (the
 * new used length exceeds text_len). After a refusal go on with the used length and counts from before.
 * Undo: the old raw bytes, kept before each accepted edit and put back in reverse order, are accepted at every step and
 * end with the first used text and tables, in the same buffer (bytes behind the used text may then be 0). */
SgfEdit sgf_edit(uint8_t *text, size_t text_len, size_t used, SgfCounts counts,
                 const uint32_t *trees, size_t trees_len, const uint32_t *nodes, size_t nodes_len,
                 uint32_t *properties, size_t properties_len, uint32_t *values, size_t values_len,
                 size_t k, const uint8_t *replacement, size_t replacement_len);

/* Plain text as a raw value for sgf_edit, in `out`: a `\` before each `\` and each `]`. Read back it is the text; it is
 * closed, and UTF-8 where the text is; it has at most twice the text's bytes. The number is 0, or 14 where it exceeds
 * out_len. */
SgfDisplay sgf_escape(const uint8_t *text, size_t text_len, uint8_t *out, size_t out_len);

/* ---- The board on screen ---------------------------------------------------------------------------------- */

/* What stands at a point. */
enum { SGF_EMPTY = 0, SGF_BLACK = 1, SGF_WHITE = 2 };

/* A number; the sides of the board; stones put on and taken off so far; what stands at each point. Of sgf_board 0 off the
 * board, and all else 0 where refused; sgf_board_next keeps what a board given to it has there. What the sums mean: a stone is put on where setup or a move sets a point to black or white
 * that was not that colour before; it is taken off where a move captures it, where a move is suicide, where AE clears
 * it, and where another colour is set over it. A point set again to its own colour counts nowhere. So for each colour
 * put on is what stands and what was taken off: captures are taken off without the stones that were cleared or
 * overwritten. Sums stop at 2 ^ 64 - 1, which no record that fits reaches. */
typedef struct {
    uint32_t number, columns, rows, reserved;
    uint64_t black_on, black_off, white_on, white_off;
    uint8_t stones[SGF_POINT_PLACES]; /* at SGF_POINT_PLACE(x, y): the columns bound x, the rows y */
} SgfBoard;

/* The board at a node of a Go tree, played from its root: of each node all setup, then all moves, in property order.
 * Only a move captures: groups of the other colour without liberty go, on the whole board, then the mover's own. The size
 * is SZ of the root, 19 by 19 without. Numbers, in this order: 19; 21 where there is no such node or its tree is not Go's;
 * 22 where SZ is invalid or repeated; 23 where a node on the way sets or plays a point off the board, or has a point in
 * two setup properties. An invalid property changes nothing. */
SgfBoard sgf_board(SGF_RECORD, size_t node);

/* One node more: its properties, `count` rows from row `first` on, played upon a board, without the check, for callers
 * whose tables are known to fit. Upon the board of its parent it gives the board of the node, text_len being the used
 * length. Numbers: 23, all else then 0; or that of the board given, which then comes back as it is. `reserved` comes back 0, whatever was
 * given. A byte of `stones` above 2 is neither stone nor liberty. Rows that are not there are no properties; a value row
 * that is not there is an empty value, and a span is cut at the end of the text. A board of number 0 with no columns or
 * no rows has no point: a node that sets or plays one gives 23, any other the board as it is. Sides above 52 count as 52,
 * and come back as given. */
SgfBoard sgf_board_next(SgfBoard board, const uint8_t *text, size_t text_len, const uint32_t *properties,
                        size_t properties_len, const uint32_t *values, size_t values_len, size_t first, size_t count);

/* ---- Board sizes ------------------------------------------------------------------------------------------- */

/* Whether a root has a board size: SZ is one number, or columns and rows with one colon, each from 1 to 52. */
enum {
    SGF_SIZE_ABSENT = 0, /* no SZ */
    SGF_SIZE_SIZED = 1,  /* one SZ with one valid value */
    SGF_SIZE_WRONG = 2   /* SZ is repeated or invalid */
};

/* How a tree's values are read. */
enum {
    SGF_RULE_GO = 0,      /* Go where the move `tt` is a pass */
    SGF_RULE_UNKNOWN = 1, /* another game */
    SGF_RULE_GO_LARGE = 2 /* Go where it is the point (19, 19): a side above 19, or SZ wrong */
};

/* A number; the kind of size; columns and rows, 19 where absent, 0 where wrong; the rule of the tree. */
typedef struct {
    uint32_t number, kind, columns, rows, rule;
} SgfSize;

/* The board size of a tree, of any game. Numbers: 19, 16 (no tree has this number); all else is then 0. */
SgfSize sgf_size(SGF_RECORD, size_t tree);

/* The same without the check, for callers whose tables are known to fit: once a tree, then sgf_go_by_rule. The number is
 * 0. Rows that do not fit do no harm: a row that is not there is no property. */
SgfSize sgf_tree_size(const uint8_t *text, size_t text_len, const uint32_t *trees, size_t trees_len,
                      const uint32_t *nodes, size_t nodes_len, const uint32_t *properties, size_t properties_len,
                      const uint32_t *values, size_t values_len, size_t tree);

/* ---- Token by token, without tables ----------------------------------------------------------------------- */

/* Number 0 and the part that trimming white space keeps (0 and 0 of a blank text); or 2 and the place. */
typedef struct {
    uint32_t number;
    size_t place, first, last;
} SgfTrim;

/* Is the text UTF-8, and what does trimming keep of it. The token rules speak of the trimmed text. */
SgfTrim sgf_trim(const uint8_t *text, size_t text_len);

/* Kinds of token. */
enum { SGF_DONE = 0, SGF_START = 1, SGF_END = 2, SGF_NODE = 3, SGF_PROPERTY = 4, SGF_FAULT = 5 };

/* A token and its span, whose end is the next place; `opens` is a property's first `[`, else the start. The number
 * is 3, 4 or 5 for a fault, else 0. After a fault there is no next place: `from`, `opens` and `to` are the start of the
 * token that fails; at the end of the text (SGF_DONE) they are the place asked for. White space before a token, and
 * after each value of a property, is skipped: space, tab, LF, VT, FF, CR. */
typedef struct {
    uint32_t kind, number;
    size_t from, opens, to;
} SgfToken;

/* The next token from a place on. Of sgf_trim's answer lend `last` as text_len, and begin at `first`: of a text that
 * ends with U+3000, which is white space only there, the walk would else end with fault 4 and not with SGF_DONE. */
SgfToken sgf_token(const uint8_t *text, size_t text_len, size_t at);

/* Kinds of value step. */
enum { SGF_NO_VALUE = 0, SGF_VALUE = 1, SGF_UNCLOSED = 2 };

/* A step over the values of a property, found in the text itself: a value's span between its brackets and the place of
 * the next; for the other kinds the place asked for. (SgfSpan is a value of a record, by its number.) */
typedef struct {
    uint32_t kind;
    size_t from, to, next;
} SgfValue;

/* The value whose `[` stands at a place: from a property's `opens` on, then from `next` to `next`. */
SgfValue sgf_next_value(const uint8_t *text, size_t text_len, size_t at);

/* ---- FF[4]'s property index, and its simple values --------------------------------------------------------- */

/* What the values of a property are. SGF_KIND_STONES and SGF_KIND_POINTS are lists, SGF_KIND_POINTS_OR_NONE an elist,
 * SGF_KIND_POINT_PAIRS (AR, LN) and SGF_KIND_LABELS (LB) lists of composed values, SGF_KIND_TEXT_PAIR is AP's,
 * SGF_KIND_BOARD_SIZE SZ's and SGF_KIND_FIGURE FG's. */
enum {
    SGF_KIND_UNKNOWN = 0,
    SGF_KIND_NONE = 1,
    SGF_KIND_NUMBER = 2,
    SGF_KIND_REAL = 3,
    SGF_KIND_DOUBLE = 4,
    SGF_KIND_COLOR = 5,
    SGF_KIND_SIMPLETEXT = 6,
    SGF_KIND_TEXT = 7,
    SGF_KIND_MOVE = 8,
    SGF_KIND_STONES = 9,
    SGF_KIND_POINTS = 10,
    SGF_KIND_POINTS_OR_NONE = 11,
    SGF_KIND_POINT_PAIRS = 12,
    SGF_KIND_LABELS = 13,
    SGF_KIND_TEXT_PAIR = 14,
    SGF_KIND_BOARD_SIZE = 15,
    SGF_KIND_FIGURE = 16
};

/* Property types. */
enum { SGF_TYPE_NONE = 0, SGF_TYPE_MOVE = 1, SGF_TYPE_SETUP = 2, SGF_TYPE_ROOT = 3, SGF_TYPE_GAME_INFO = 4, SGF_TYPE_INHERIT = 5 };

/* The parts of FF[4] that describe properties. */
enum {
    SGF_SECTION_UNKNOWN = 0,
    SGF_SECTION_MOVE = 1,
    SGF_SECTION_SETUP = 2,
    SGF_SECTION_NODE_ANNOTATION = 3,
    SGF_SECTION_MOVE_ANNOTATION = 4,
    SGF_SECTION_MARKUP = 5,
    SGF_SECTION_ROOT = 6,
    SGF_SECTION_GAME_INFO = 7,
    SGF_SECTION_TIMING = 8,
    SGF_SECTION_MISCELLANEOUS = 9,
    SGF_SECTION_GO = 10
};

/* What FF[4] lists of a property; all 0 where it does not list it. */
typedef struct {
    uint32_t kind, type, section, reserved;
} SgfEntry;

/* Whether a raw identifier, as a property's row or sgf_token gives it, reads as a name: 1 where its uppercase letters are
 * exactly those bytes, else 0. `Comment` and `C ` read as `C`; nothing reads as a name with another byte than those letters. */
uint32_t sgf_is_named(const uint8_t *identifier, size_t identifier_len, const uint8_t *name, size_t name_len);

/* What FF[4] lists of the property with this raw identifier: its 63 general properties, and HA, KM, TB and TW of Go. By
 * the uppercase letters, so `Comment` is C; an identifier without a letter or with more than two is not listed. */
SgfEntry sgf_entry(const uint8_t *identifier, size_t identifier_len);

/* Kinds of simple value. */
enum {
    SGF_SIMPLE_OTHER = 0,   /* not listed, or of a kind that is not read here; HA in another game */
    SGF_SIMPLE_INVALID = 1, /* not one value, or not as its kind wants it */
    SGF_SIMPLE_NONE = 2,    /* one empty value */
    SGF_SIMPLE_DOUBLE = 3,  /* size: 1 or 2 */
    SGF_SIMPLE_COLOR = 4,   /* size: 1 black, 2 white */
    SGF_SIMPLE_NUMBER = 5   /* its size, and 1 in `negative` where it has a minus: SGF_INT64 makes one of both */
};

/* A number, the kind, and what the kind says of the other fields, which else are 0. */
typedef struct {
    uint32_t number, kind, negative, reserved;
    uint64_t size;
} SgfSimple;

/* The int64_t of an SgfSimple that is a Number. */
#define SGF_INT64(simple) \
    ((simple).negative && (simple).size ? -(int64_t)((simple).size - 1) - 1 : (int64_t)(simple).size)

/* The simple value of property p: of those listed as None, Double, Color and Number, over the read value. None is empty,
 * a Double `1` or `2`, a Color `B` or `W`, a Number an optional sign and digits within 64 bits with sign, without the
 * ranges that FF[4] sets for FF, ST and PM; `HA[1]` is a Number, though its Go value is invalid. Numbers: 19, 16. */
SgfSimple sgf_simple_value(SGF_RECORD, size_t p);

/* The same of one property without the check, for callers whose tables are known to fit: how its tree is read (0 and 2
 * as Go, any other number as another game), its raw identifier, and its values, `count` rows of the value table from row
 * `first` on. The number is 0. A row that is not there is an empty value, a span is cut at the end of the text. */
SgfSimple sgf_simple_property(uint32_t rule, const uint8_t *identifier, size_t identifier_len,
                              const uint8_t *text, size_t text_len, const uint32_t *values, size_t values_len,
                              size_t first, size_t count);

/* ---- Corrections over the air ----------------------------------------------------------------------------- */

/* A feed is a count, then for each correction a value number, a length and that many bytes. Numbers are groups of seven
 * bits, lowest first, the top bit set when another follows: at most four groups, shortest form only. Value numbers
 * strictly rise, and nothing stands behind the last correction. */

/* Where a value's bytes stand: in the record's text, or in the feed. */
enum { SGF_FROM_RECORD = 0, SGF_FROM_FEED = 1 };

/* Number 0 and the span of a value's bytes in its source; or the number of a refusal and its place, all else 0. */
typedef struct {
    uint32_t number, source;
    size_t place, from, to;
} SgfPart;

/* Number 0; or the number of a refusal and its place. */
typedef struct {
    uint32_t number, reserved;
    size_t place;
} SgfCheck;

/* The bytes of value k as corrected: a part of the feed where it is corrected, else of the record. Nothing is copied.
 * Numbers: 19, 24, then for each correction 16, 17, 2 (place: in the feed), 18; then 16 for k itself. */
SgfPart sgf_corrected(const uint8_t *text, size_t text_len, size_t used, SgfCounts counts,
                      const uint32_t *trees, size_t trees_len, const uint32_t *nodes, size_t nodes_len,
                      const uint32_t *properties, size_t properties_len, const uint32_t *values, size_t values_len,
                      const uint8_t *feed, size_t feed_len, size_t k);

/* Whether a feed may be applied to a record, but for the length of the text: 19, 24, then for each correction 16, 17, 2
 * (place: in the feed), 18. Once this is 0, and while neither text, tables nor feed change, sgf_feed_find serves. */
SgfCheck sgf_feed_check(const uint8_t *text, size_t text_len, size_t used, SgfCounts counts,
                        const uint32_t *trees, size_t trees_len, const uint32_t *nodes, size_t nodes_len,
                        const uint32_t *properties, size_t properties_len, const uint32_t *values, size_t values_len,
                        const uint8_t *feed, size_t feed_len);

/* Where a feed has the bytes of value k: SGF_FROM_FEED and their span; SGF_FROM_RECORD and 0..0 where it has none.
 * Nothing is checked and nothing refused: the corrections before the first fault are looked through. */
SgfPart sgf_feed_find(const uint8_t *feed, size_t feed_len, size_t k);

/* Puts all corrections of a feed into the record in place, or changes nothing. Writes the text from the first corrected
 * value on and moves the rows behind it, once; where the text became shorter, the bytes between the new and the old used
 * length become 0. Tables that fit stay fitting; those of a strict reading are then what a fresh strict reading of the
 * new text gives; every value's bytes are what sgf_corrected gave before. Numbers: 19, 24, then for each correction 16,
 * 17, 2 (place: in the feed), 18, then 1 and 14 for the final length. After a refusal go on with the used length and
 * counts from before. */
SgfEdit sgf_correct(uint8_t *text, size_t text_len, size_t used, SgfCounts counts,
                    const uint32_t *trees, size_t trees_len, const uint32_t *nodes, size_t nodes_len,
                    uint32_t *properties, size_t properties_len, uint32_t *values, size_t values_len,
                    const uint8_t *feed, size_t feed_len);

/* Making a feed: its count, then each correction in the order of value numbers, each call behind the bytes of the one
 * before. Lend 4 bytes for the count and 8 beside each value's bytes, which are raw (sgf_escape). Number 0 and how many
 * bytes were put in front of the output; or a refusal, and nothing changes: 24 (a number or a length of 2^28 or more),
 * 14 (no room). Order, count and bytes are not looked at here: sgf_feed_check does that. */
SgfWriting sgf_feed_begin(size_t count, uint8_t *out, size_t out_len);
SgfWriting sgf_feed_add(size_t value, const uint8_t *bytes, size_t bytes_len, uint8_t *out, size_t out_len);

/* ---- Tokens from blocks ------------------------------------------------------------------------------------ */

/* A text that arrives in blocks, of any length and cut anywhere: through a character, an escape, white space. A box
 * needs 48 bytes for what is known between two blocks and 12 bytes for each token, whatever the length of the text; a
 * block may be thrown away as soon as its call is back. After the close, number, place and rows are those of one
 * strict making of tokens from the joined text: nothing else is read, and 6 to 13 are not given. */

/* A token row: its kind (SGF_START to SGF_PROPERTY; 0 is none), its start and its end, counted from the start of the
 * joined text. A text of n bytes has at most n tokens. */
enum { SGF_TOKEN_KIND = 0, SGF_TOKEN_FROM = 1, SGF_TOKEN_TO = 2, SGF_TOKEN_STRIDE = 3 };
#define SGF_TOKENS_FOR(n) ((size_t)(n))

/* What is known between two blocks. All zero is the start: `SgfBlocks state = {0};`. Pass on what the last call gave;
 * other numbers have an answer too. The fields are the library's own: `total` bytes so far (at most 1,048,577); where
 * UTF-8 stands (`utf` 0 between characters, 1 to 7 within one, else bad), since which place, with which bits; the end of
 * the last character that is no white space; where the token rules stand and how many rows there are, `now` and after
 * that character; and whether it is `closed`. */
typedef struct {
    uint32_t total, utf, utf_from, code, last, now, now_from, count, kept, kept_from, held, closed;
} SgfBlocks;

/* Number 0, or 20 after the close; and what is known now. */
typedef struct {
    uint32_t number;
    SgfBlocks state;
} SgfBlock;

/* A block of the text, also of no bytes. Lend the same rows to every call, untouched between them; rows that do not fit
 * are counted and not written. Number: 20 (nothing changes). What is wrong with the text is said by sgf_close. */
SgfBlock sgf_block(SgfBlocks state, const uint8_t *block, size_t block_len, uint32_t *rows, size_t rows_len);

/* Number 0 and how many tokens there are; or why not, and the place. */
typedef struct {
    uint32_t number;
    size_t place, tokens;
    SgfBlocks state;
} SgfClose;

/* The end of the text. Numbers, in this order: 20 (after a close, also one that was refused; nothing changes), 1, 2,
 * 3 to 5, 14 (rows_len is less than SGF_TOKEN_STRIDE for each token). */
SgfClose sgf_close(SgfBlocks state, uint32_t *rows, size_t rows_len);

/* ---- A season in numbers ----------------------------------------------------------------------------------- */

/* The tag of bytes: FNV-1a, 64 bits. That of a record is the tag of what sgf_write gives, so that records which are
 * written alike have one tag; their tallies may differ (`(;GMx[2];B[aa])`, read as Go, is written as `(;GM[2];B[aa])`,
 * which is not). It is shown as 16 hex digits, highest first (`"%016" PRIx64` of <inttypes.h>). */
uint64_t sgf_tag(const uint8_t *bytes, size_t bytes_len);

/* A number; how many trees, nodes, moves of each colour without passes, and passes a record has. */
typedef struct {
    uint32_t number, reserved;
    size_t trees, nodes, black, white, passes;
} SgfTally;

/* The tally of a record: all its trees and nodes; and over the properties of its Go trees, B that is a point, W that is a
 * point, on the board or not, and B or W that is a pass, as sgf_go_value says them. Properties are counted, not nodes; an
 * invalid one counts nowhere. Number: 19; all else is then 0. */
SgfTally sgf_tally(SGF_RECORD);

/* A number; how many bytes were written; the tally; the tag of the writing. */
typedef struct {
    uint32_t number, reserved;
    size_t length;
    size_t trees, nodes, black, white, passes;
    uint64_t tag;
} SgfLine;

/* The line of a record in a season's report, since 0.11.0: what sgf_write, sgf_tally and sgf_tag of the writing give, by one
 * call with one check that the tables fit. `out` has the writing, of `length` bytes, and what was behind it; lend it as
 * to sgf_write. Numbers: 19, 15, 14, as sgf_write; `out` is then as it was, and all else is 0. Call it after a reading
 * that is accepted: the counts of a refused one are 0, and no trees are a record too, with number 0, an empty writing and
 * the tag of no bytes; where the text is not UTF-8 or too long it is 19. */
SgfLine sgf_line(SGF_RECORD, uint8_t *out, size_t out_len);

#ifdef __cplusplus
}
#endif

#endif
