/*
 * Buffers between two pages that nobody may touch. The library is not
 * instrumented; an access outside what it is lent faults here, or spoils a
 * mark.
 */
#ifndef GUARD_H
#define GUARD_H

#include <stdbool.h>
#include <stddef.h>
#include <stdint.h>

/* Where the lent part lies in the buffer. */
typedef enum {
    GUARD_AFTER,  /* its end is the page behind */
    GUARD_BEFORE, /* its start is the end of the page in front */
    GUARD_ODD     /* between the two, at an odd address */
} guard_place;

enum { GUARD_PLACES = 3 };

/* What the call that it is lent to may do with it. */
typedef enum { GUARD_WRITABLE, GUARD_READ_ONLY } guard_access;

typedef struct {
    guard_access access;
    size_t room;   /* whole pages */
    uint8_t *view; /* what is lent is of these pages */
    uint8_t *keep; /* the same bytes, always writable */
    size_t start;  /* pages before it are shut */
    size_t at;     /* of the lent part */
    size_t len;
} guarded;

/* A buffer that can lend up to len bytes; ends the program if there is none. */
guarded guard_make(size_t len, guard_access access);

/* Fills the buffer with a mark and lends len bytes of it. */
uint8_t *guard_lend(guarded *g, size_t len, guard_place place);

/* The lent bytes for the lender, who may always write them. */
uint8_t *guard_inside(const guarded *g);

/* Whether the mark still stands in every byte that was not lent. */
bool guard_intact(const guarded *g);

#endif
