/* Memory to lend between fences: an array begins or ends at a page that nobody may touch, and has canaries on its other
 * side, so that a byte read or written beyond it is seen on one side and a byte written on both. */
#ifndef LENT_H
#define LENT_H

#include <stdint.h>
#include <stdlib.h>
#include <string.h>
#include <sys/mman.h>

enum { GUARD = 64, PAGE = 4096 };

/* What may be touched, what is lent of it, and what that and its canaries were. */
typedef struct {
    uint8_t *low, *high, *at, *then;
    size_t length;
} Lent;

static void make_room(Lent *l, size_t bytes) {
    size_t room = (bytes + PAGE - 1) / PAGE * PAGE;
    l->low = mmap(NULL, room + 2 * PAGE, PROT_NONE, MAP_PRIVATE | MAP_ANONYMOUS, -1, 0);
    l->then = malloc(room);
    if (l->low == MAP_FAILED || l->then == NULL || mprotect(l->low + PAGE, room, PROT_READ | PROT_WRITE) != 0) {
        abort();
    }
    l->low += PAGE;
    l->high = l->low + room;
    l->at = l->low;
    memset(l->low, 0xA5, room);
}

/* Lends so many bytes, at the upper fence or the lower. */
static void lend(Lent *l, size_t bytes, int at_low) {
    if (bytes > (size_t)(l->high - l->low)) {
        abort();
    }
    l->at = at_low ? l->low : l->high - bytes;
    l->length = bytes;
}

/* The first and the last byte that is watched. */
static uint8_t *watched_from(const Lent *l) { return l->at - l->low < GUARD ? l->low : l->at - GUARD; }
static uint8_t *watched_to(const Lent *l) {
    return l->high - (l->at + l->length) < GUARD ? l->high : l->at + l->length + GUARD;
}

static void remember(Lent *l) {
    memcpy(l->then, watched_from(l), (size_t)(watched_to(l) - watched_from(l)));
}

/* Whether all that is watched is as it was, but for the lent bytes `from` up to `to`. */
static int same_but(const Lent *l, size_t from, size_t to) {
    uint8_t *low = watched_from(l);
    size_t before = (size_t)(l->at - low) + from, behind = (size_t)(l->at - low) + to;
    return memcmp(low, l->then, before) == 0
        && memcmp(low + behind, l->then + behind, (size_t)(watched_to(l) - low) - behind) == 0;
}

#endif
