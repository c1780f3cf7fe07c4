/*
 * A table in words.
 */
#ifndef SHOW_H
#define SHOW_H

#include "table.h"

enum { EVERY_ITEM = OSPREYSCREEN_ITEMS_MAX };

/* Prints the stations, the open round and what it has found, and the copies of
 * the item, or of every item. The table is not empty. */
void print_state(FILE *out, const table *t, unsigned item);

#endif
