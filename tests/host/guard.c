#define _GNU_SOURCE /* memfd_create */

#include "guard.h"

#include <stdio.h>
#include <stdlib.h>
#include <string.h>
#include <sys/mman.h>
#include <unistd.h>

static const uint8_t MARK = 0xA5;

static _Noreturn void give_up(const char *what)
{
    perror(what);
    exit(EXIT_FAILURE);
}

static size_t page_size(void)
{
    return (size_t)sysconf(_SC_PAGESIZE);
}

static uint8_t *map(void *where, size_t size, int protection, int flags, int file)
{
    uint8_t *at = mmap(where, size, protection, flags, file, 0);
    if (at == MAP_FAILED) {
        give_up("mmap");
    }
    return at;
}

static int protection_of(const guarded *g)
{
    return g->access == GUARD_WRITABLE ? PROT_READ | PROT_WRITE : PROT_READ;
}

guarded guard_make(size_t len, guard_access access)
{
    size_t page = page_size();
    /* Two bytes more, for a part at an odd address with a mark around it. */
    guarded g = {.access = access, .room = (len + 2 + page - 1) / page * page};
    int file = memfd_create("guarded", 0);

    if (file < 0 || ftruncate(file, (off_t)g.room) != 0) {
        give_up("memfd_create");
    }
    uint8_t *all = map(NULL, g.room + 2 * page, PROT_NONE, MAP_PRIVATE | MAP_ANONYMOUS, -1);
    g.view = map(all + page, g.room, protection_of(&g), MAP_SHARED | MAP_FIXED, file);
    g.keep = map(NULL, g.room, PROT_READ | PROT_WRITE, MAP_SHARED, file);
    close(file);
    return g;
}

static void protect(const guarded *g, size_t from, size_t to, int protection)
{
    if (from < to && mprotect(g->view + from, to - from, protection) != 0) {
        give_up("mprotect");
    }
}

/* Leaves as many pages open as the length needs; the others are in front. */
static void shut(guarded *g, size_t len)
{
    size_t page = page_size();
    size_t start = g->room - (len + 2 + page - 1) / page * page;
    protect(g, g->start, start, PROT_NONE);
    protect(g, start, g->start, protection_of(g));
    g->start = start;
}

uint8_t *guard_lend(guarded *g, size_t len, guard_place place)
{
    shut(g, len);
    memset(g->keep + g->start, MARK, g->room - g->start);
    g->len = len;
    switch (place) {
    case GUARD_AFTER:
        g->at = g->room - len;
        break;
    case GUARD_BEFORE:
        g->at = g->start;
        break;
    case GUARD_ODD:
        g->at = g->start + ((g->room - g->start - len) / 2 | 1);
        break;
    }
    return g->view + g->at;
}

uint8_t *guard_inside(const guarded *g)
{
    return g->keep + g->at;
}

/* Whether every byte is the mark: the first is, and each equals the next. */
static bool marked(const uint8_t *bytes, size_t count)
{
    return count == 0 || (bytes[0] == MARK && memcmp(bytes, bytes + 1, count - 1) == 0);
}

bool guard_intact(const guarded *g)
{
    size_t end = g->at + g->len;
    return marked(g->keep + g->start, g->at - g->start) && marked(g->keep + end, g->room - end);
}
