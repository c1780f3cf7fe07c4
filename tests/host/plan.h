/*
 * Plan is exact: rounds that turn to the stations on the bus in rising number
 * take as many polls and puts as it says. Such rounds are made on copies of the
 * table.
 */
#ifndef PLAN_H
#define PLAN_H

#include "tally.h"

/* A plan that is done or out of hearing, on a sound table. */
typedef struct {
    const loan *table;
    uint64_t item;
    const ospreyscreen_reply *told;
    /* What a finished read of the item replies by the book; a null pointer
     * where the book does not cover the table. */
    const ospreyscreen_reply *book;
} planned;

/* Holds the plan to rounds on copies and to the reach, and counts it if there
 * is a tally. Gives what is wrong, or a null pointer. */
const char *plan_hold(const implementation *with, const planned *said, tally *counts);

#endif
