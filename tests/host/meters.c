#include "meters.h"

#include <inttypes.h>

static void print_row(FILE *to, const numbered *row)
{
    fprintf(to, "%s 1 to %d:", row->name, row->last);
    for (int number = 1; number <= row->last; number++) {
        fprintf(to, " %" PRIu64, row->met[number]);
    }
    fprintf(to, "\n");
}

static bool row_met(FILE *to, const numbered *row)
{
    bool all = true;
    for (int number = 1; number <= row->last; number++) {
        if (row->met[number] == 0) {
            fprintf(to, "not met: %s %d\n", row->name, number);
            all = false;
        }
    }
    return all;
}

void meters_print(FILE *to, const meters *m)
{
    fprintf(to, "%9" PRIu64 "  calls\n", m->calls);
    for (int i = 0; i < m->count; i++) {
        fprintf(to, "%9" PRIu64 "  %s\n", m->met[i], m->names[i]);
    }
    for (int i = 0; i < NUMBERED_MOST && m->rows[i].name != NULL; i++) {
        print_row(to, &m->rows[i]);
    }
}

bool meters_met_all(FILE *to, const meters *m)
{
    bool all = true;
    for (int i = 0; i < m->count; i++) {
        if (m->met[i] == 0) {
            fprintf(to, "not met: %s\n", m->names[i]);
            all = false;
        }
    }
    for (int i = 0; i < NUMBERED_MOST && m->rows[i].name != NULL; i++) {
        all &= row_met(to, &m->rows[i]);
    }
    return all;
}
