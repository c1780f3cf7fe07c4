/*
 * Document 01's book of one copy: the one-copy reference model. It is fed
 * each call with its arguments and the number of its reply, nothing else.
 */
#ifndef BOOK_H
#define BOOK_H

#include "calls.h"

/* What the book has for one item. */
typedef struct {
    uint64_t value;
    uint64_t writes;
    uint64_t changes;
} book_item;

/* "one noted round or none: read, write or change, its item, and in a write
 * its value" */
typedef struct {
    book_item items[OSPREYSCREEN_ITEMS_MAX];
    int noted; /* enum ospreyscreen_round */
    uint64_t noted_item;
    uint64_t noted_value;
} book;

/* The book's step for one call whose reply had this number. */
void book_step(book *b, const call *c, uint64_t number);

#endif
