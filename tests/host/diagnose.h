/*
 * Diagnose is exact: it tells how a commit would end, and which station's copy
 * that commit goes by. Commits are made on copies of the table.
 */
#ifndef DIAGNOSE_H
#define DIAGNOSE_H

#include "tally.h"

/* A diagnose, done or refused; it leaves the table as it was. */
typedef struct {
    const loan *table;
    const ospreyscreen_reply *told;
    /* What a finished read of the round's item replies by the book; a null
     * pointer where the book does not cover the table. */
    const ospreyscreen_reply *book;
} diagnosed;

/* Whether a commit that ends so gets what the diagnose told: the number of its
 * refusal, or its first figure. */
bool diagnose_foretells(const ospreyscreen_reply *told, const ospreyscreen_reply *end);

/* Holds the diagnose to a commit on a copy, and counts it if there is a tally.
 * Gives what is wrong, or a null pointer. */
const char *diagnose_hold(const implementation *with, const diagnosed *said, tally *counts);

#endif
