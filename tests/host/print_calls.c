/*
 * Prints the calls, a line each: code, name, length of the frame and kinds of
 * arguments, with a | between. The test of tools/frames compares them.
 */
#include "calls.h"

#include <stdio.h>
#include <stdlib.h>

int main(void)
{
    for (int i = 0; i < CALL_COUNT; i++) {
        const call_shape *c = &CALLS[i];
        printf("%d|%s|%zu|", c->code, c->name, frame_length(c));
        for (int k = 0; k < c->argument_count; k++) {
            printf("%s%s", k == 0 ? "" : " ", ARGUMENTS[c->arguments[k]].frame_kind);
        }
        printf("\n");
    }
    return fflush(stdout) == 0 ? EXIT_SUCCESS : EXIT_FAILURE;
}
