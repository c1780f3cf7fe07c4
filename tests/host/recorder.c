#include "recorder.h"

#include "reference.h"

static const implementation REFERENCE = IMPLEMENTATION("reference", ref_);

recorder recorder_make(list *into)
{
    recorder made = {.into = into, .steering = run_make(&REFERENCE)};
    /* Calls may come before the first table. */
    record_table(&made, 0, GUARD_AFTER, false);
    return made;
}

void record_table(recorder *to, size_t len, guard_place place, bool null_table)
{
    list_clear(to->into, len, place, null_table);
    run_begin(&to->steering, to->into);
}

const loan *recorded_table(const recorder *of)
{
    return &of->steering.lent[LENT_TABLE];
}

bool recorder_has_room(const recorder *of)
{
    return list_has_room(of->into, recorded_table(of)->len + CONFIGURATION_ROOM);
}

ospreyscreen_reply record_call(recorder *to, const call *c, guard_place place)
{
    const step *s = list_call(to->into, c, place);
    run_lend(&to->steering, s);
    run_call(&to->steering, &s->made);
    return run_reply(&to->steering);
}

void record_bytes(recorder *to, size_t at, const uint8_t *bytes, size_t count)
{
    run_change(&to->steering, list_bytes(to->into, at, bytes, count));
}

void record_raise(recorder *to, counter raised, uint64_t item, uint64_t by)
{
    run_change(&to->steering, list_raise(to->into, raised, item, by));
}
