/*
 * Spellings do no harm. A call on a table and on the same with every
 * configuration respelled gets the same reply but for the read places, and
 * leaves the same table but for spellings; and a lay or an opening of a change
 * leaves the same bytes whatever the spelling given. So two lists that differ in
 * spellings alone leave the same bytes. Such calls are made on copies of the
 * table.
 */
#ifndef SPELLING_H
#define SPELLING_H

#include "tally.h"

/* A table before a call. */
typedef struct {
    bool to_table; /* the call is held to one on this table in another spelling */
    size_t len;
    uint8_t bytes[OSPREYSCREEN_TABLE_LENGTH_MAX];
} table_before;

/* A call that has been made. */
typedef struct {
    const call *made;
    const table_before *before;
    const loan *after;
    const ospreyscreen_reply *reply;
} spelled;

/* Keeps the table for a call; false if this one is not held to others. What is
 * drawn depends on the table and the call alone. */
bool spelling_keep(table_before *kept, const call *c, const loan *table);

/* Holds the call to those on copies, and counts it if there is a tally. Gives
 * what is wrong, or a null pointer. */
const char *spelling_hold(const implementation *with, const spelled *said, tally *counts);

#endif
