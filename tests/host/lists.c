#define _POSIX_C_SOURCE 200809L /* getline */

#include "lists.h"

#include <inttypes.h>
#include <stdlib.h>
#include <string.h>

static void *room_for(size_t count, size_t size)
{
    void *room = calloc(count, size);
    if (room == NULL) {
        perror("calloc");
        exit(EXIT_FAILURE);
    }
    return room;
}

list list_make(size_t steps, size_t bytes)
{
    list l = {.room = steps, .pool_room = bytes};
    l.steps = room_for(steps, sizeof *l.steps);
    l.pool = room_for(bytes, 1);
    return l;
}

void list_free(list *l)
{
    free(l->steps);
    free(l->pool);
}

void list_clear(list *l, size_t table_len, guard_place place, bool null_table)
{
    l->len = table_len;
    l->place = place;
    l->null_table = null_table;
    l->count = 0;
    l->pool_used = 0;
}

bool list_has_room(const list *l, size_t bytes)
{
    return l->count < l->room && bytes <= l->pool_room - l->pool_used;
}

static step *add(list *l, step_kind kind, size_t bytes)
{
    if (!list_has_room(l, bytes)) {
        fprintf(stderr, "a list is longer than its room\n");
        abort();
    }
    step *s = &l->steps[l->count++];
    *s = (step){.kind = kind};
    return s;
}

static const uint8_t *keep(list *l, const uint8_t *bytes, size_t count)
{
    uint8_t *at = l->pool + l->pool_used;
    if (count > 0) {
        memcpy(at, bytes, count);
    }
    l->pool_used += count;
    return at;
}

const step *list_call(list *l, const call *c, guard_place place)
{
    step *s = add(l, STEP_CALL, c->config_len);
    s->made = *c;
    s->place = place;
    if (c->config != NULL) {
        s->made.config = keep(l, c->config, c->config_len);
    }
    return s;
}

const step *list_bytes(list *l, size_t at, const uint8_t *bytes, size_t count)
{
    step *s = add(l, STEP_BYTES, count);
    s->at = at;
    s->bytes = keep(l, bytes, count);
    s->count = count;
    return s;
}

const step *list_raise(list *l, counter raised, uint64_t item, uint64_t by)
{
    step *s = add(l, STEP_RAISE, 0);
    s->raised = raised;
    s->item = item;
    s->by = by;
    return s;
}

/* ---- Writing ---- */

static void write_hex(FILE *to, const uint8_t *bytes, size_t count)
{
    for (size_t i = 0; i < count; i++) {
        fprintf(to, "%02X", bytes[i]);
    }
}

/* A call that has no frame: its numbers, then its configuration. */
static void write_call(FILE *to, const step *s)
{
    const call_shape *shape = shape_of(&s->made);

    fprintf(to, "# call %d %d", shape->code, (int)s->place);
    for (int i = 0; i < shape->argument_count; i++) {
        if (shape->arguments[i] != ARGUMENT_CONFIGURATION) {
            fprintf(to, " %" PRIu64, s->made.numbers[shape->arguments[i]]);
        }
    }
    if (call_has(shape, ARGUMENT_CONFIGURATION)) {
        fprintf(to, s->made.config == NULL ? " null" : " x");
        write_hex(to, s->made.config, s->made.config_len);
    }
}

static void write_step(FILE *to, const step *s)
{
    uint8_t frame[FRAME_MOST];
    size_t len;

    switch (s->kind) {
    case STEP_CALL:
        len = call_to_frame(&s->made, frame);
        write_hex(to, frame, len);
        if (len == 0) {
            write_call(to, s);
        }
        break;
    case STEP_BYTES:
        fprintf(to, "# bytes %zu x", s->at);
        write_hex(to, s->bytes, s->count);
        break;
    case STEP_RAISE:
        fprintf(to, "# raise %d %" PRIu64 " %" PRIu64, (int)s->raised, s->item, s->by);
        break;
    }
    fprintf(to, "\n");
}

void list_write(FILE *to, const list *l)
{
    fprintf(to, "# table %zu %d %d\n", l->len, (int)l->place, l->null_table);
    for (size_t i = 0; i < l->count; i++) {
        write_step(to, &l->steps[i]);
    }
}

/* ---- Reading ---- */

static _Noreturn void wrong(const char *line)
{
    fprintf(stderr, "no step of a list: %s\n", line);
    exit(EXIT_FAILURE);
}

/* Turns digits into bytes, in place; gives their number. */
static size_t read_hex(char *text, const char *line)
{
    size_t count = 0;
    for (char *at = text; at[0] != '\0'; at += 2) {
        unsigned byte;
        if (sscanf(at, "%2X", &byte) != 1 || at[1] == '\0') {
            wrong(line);
        }
        text[count++] = (char)byte;
    }
    return count;
}

static uint64_t next_number(const char *line)
{
    char *word = strtok(NULL, " ");
    if (word == NULL) {
        wrong(line);
    }
    return strtoull(word, NULL, 10);
}

static void read_call(list *l, const char *line)
{
    call c = {.code = (int)next_number(line)};
    guard_place place = (guard_place)(next_number(line) % GUARD_PLACES);
    const call_shape *shape = shape_of(&c);

    for (int i = 0; i < shape->argument_count; i++) {
        if (shape->arguments[i] != ARGUMENT_CONFIGURATION) {
            c.numbers[shape->arguments[i]] = next_number(line);
        }
    }
    char *word = strtok(NULL, " ");
    if (word != NULL && word[0] == 'x') {
        c.config_len = read_hex(word + 1, line);
        c.config = (const uint8_t *)word + 1;
    }
    list_call(l, &c, place);
}

static void read_bytes(list *l, const char *line)
{
    size_t at = next_number(line);
    char *word = strtok(NULL, " ");
    if (word == NULL || word[0] != 'x') {
        wrong(line);
    }
    size_t count = read_hex(word + 1, line);
    list_bytes(l, at, (const uint8_t *)word + 1, count);
}

/* A step that is no frame, or the table's line. */
static void read_words(list *l, const char *line)
{
    const char *word = strtok(NULL, " ");

    if (word != NULL && strcmp(word, "call") == 0) {
        read_call(l, line);
    } else if (word != NULL && strcmp(word, "bytes") == 0) {
        read_bytes(l, line);
    } else if (word != NULL && strcmp(word, "raise") == 0) {
        counter raised = next_number(line) == 0 ? COUNTER_VERSION : COUNTER_GENERATION;
        uint64_t item = next_number(line);
        list_raise(l, raised, item, next_number(line));
    } else if (word != NULL && strcmp(word, "table") == 0) {
        l->len = next_number(line);
        l->place = (guard_place)(next_number(line) % GUARD_PLACES);
        l->null_table = next_number(line) != 0;
    } else {
        wrong(line);
    }
}

static void read_frame(list *l, char *text, const char *line)
{
    call c;
    size_t len = read_hex(text, line);
    if (!call_from_frame(&c, (const uint8_t *)text, len)) {
        wrong(line);
    }
    list_call(l, &c, GUARD_AFTER);
}

void list_read(FILE *from, list *l)
{
    char *line = NULL;
    size_t room = 0;

    list_clear(l, 0, GUARD_AFTER, false);
    while (getline(&line, &room, from) >= 0) {
        line[strcspn(line, "\n")] = '\0';
        char *word = strtok(line, " ");
        if (word != NULL && word[0] == '#') {
            read_words(l, line);
        } else if (word != NULL) {
            read_frame(l, word, line);
        }
    }
    free(line);
}
