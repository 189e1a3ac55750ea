/* What each step in C of docs/TOUR.md begins with: a file read into lent memory, and the records of the tour. */
#include "sgf_record.h"

#include <inttypes.h>
#include <stdio.h>
#include <string.h>

enum { TOUR_TEXT = 4096 };

/* A file's bytes in lent memory; how many. */
static inline size_t tour_load(const char *name, uint8_t *bytes, size_t room) {
    FILE *file = fopen(name, "rb");
    size_t length = file != NULL ? fread(bytes, 1, room, file) : 0;
    if (file != NULL) {
        fclose(file);
    }
    return length;
}

/* The record of a file of at most 2,048 bytes, read strictly, with as much room again for edits. One at a time. */
static inline SgfRecord tour_read(const char *name) {
    static uint8_t text[TOUR_TEXT];
    static uint32_t numbers[SGF_NUMBERS_FOR(TOUR_TEXT / 2)];
    size_t used = tour_load(name, text, TOUR_TEXT / 2);
    SgfRecord record = sgf_record_in(text, TOUR_TEXT, used, numbers, TOUR_TEXT / 2);
    SgfReading reading = sgf_record_read(&record);
    if (reading.number != SGF_ACCEPTED) {
        printf("refused %" PRIu32 " at %zu: %s\n", reading.number, reading.place, sgf_message(reading.number));
    }
    return record;
}
