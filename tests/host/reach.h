/*
 * Reach is exact: its figure says how rounds end that turn to every station on
 * the bus. Such rounds are made on copies of the table.
 */
#ifndef REACH_H
#define REACH_H

#include "tally.h"

/* A reach that is done, on a sound table. */
typedef struct {
    const loan *table;
    uint64_t item;
    uint64_t figure;
    /* What a finished read of the item replies by the book; a null pointer
     * where the book does not cover the table. */
    const ospreyscreen_reply *book;
} reached;

/* Holds the reach to rounds on copies, and counts it if there is a tally. What
 * is drawn depends on the table and the item alone. Gives what is wrong, or a
 * null pointer. */
const char *reach_hold(const implementation *with, const reached *said, tally *counts);

#endif
