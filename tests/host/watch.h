/* Runs what may fault or not end, and comes back from it. */
#ifndef WATCH_H
#define WATCH_H

/* Does it; gives a null pointer, or what it came to if it faulted or took so
 * many seconds of the program's own time. */
const char *watch(void (*doing)(void *), void *with, unsigned seconds);

#endif
