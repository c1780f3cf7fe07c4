#include "book.h"

/* "every item gets the starting value and counts 0; no round is noted" */
static void step_lay(book *b, uint64_t value)
{
    for (int i = 0; i < OSPREYSCREEN_ITEMS_MAX; i++) {
        b->items[i] = (book_item){value, 0, 0};
    }
    b->noted = OSPREYSCREEN_ROUND_NONE;
}

/* "Each opening: its round is noted." */
static void step_opening(book *b, int kind, uint64_t item, uint64_t value)
{
    b->noted = kind;
    b->noted_item = item;
    b->noted_value = value;
}

/* "a noted write gives its item the noted value and adds one to its writes; a
 * noted change adds one to its item's changes; a read alters no item. Then no
 * round is noted." */
static void step_commit(book *b)
{
    if (b->noted == OSPREYSCREEN_ROUND_WRITE) {
        b->items[b->noted_item].value = b->noted_value;
        b->items[b->noted_item].writes += 1;
    }
    if (b->noted == OSPREYSCREEN_ROUND_CHANGE) {
        b->items[b->noted_item].changes += 1;
    }
    b->noted = OSPREYSCREEN_ROUND_NONE;
}

void book_step(book *b, const call *c, uint64_t number)
{
    int kind = shape_of(c)->opens;

    if (number != 0) {
        return;
    }
    if (kind != OSPREYSCREEN_ROUND_NONE) {
        step_opening(b, kind, c->numbers[ARGUMENT_ITEM], c->numbers[ARGUMENT_VALUE]);
    }
    switch (c->code) {
    case OSPREYSCREEN_LAY:
        step_lay(b, c->numbers[ARGUMENT_VALUE]);
        break;
    case OSPREYSCREEN_COMMIT:
        step_commit(b);
        break;
    case OSPREYSCREEN_ABANDON:
        b->noted = OSPREYSCREEN_ROUND_NONE;
        break;
    default: /* "Poll, put, link, reach: the book stays as it was", and with diagnose and plan */
        break;
    }
}
