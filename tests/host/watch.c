#define _XOPEN_SOURCE 700 /* sigaction, sigaltstack, sigsetjmp */

#include "watch.h"

#include <setjmp.h>
#include <signal.h>
#include <stdbool.h>
#include <stdint.h>
#include <stdlib.h>
#include <sys/time.h>

/* Where a call that faults or does not end comes back to. */
static sigjmp_buf way_out;

static void on_signal(int number)
{
    siglongjmp(way_out, number);
}

/* The handler has a stack of its own: a call may have used up the other. */
static void catch_signals(void)
{
    static const int numbers[] = {SIGSEGV, SIGBUS, SIGILL, SIGFPE, SIGVTALRM};
    static uint8_t room[1 << 16];
    stack_t stack = {.ss_sp = room, .ss_size = sizeof room};
    struct sigaction action = {.sa_handler = on_signal, .sa_flags = SA_NODEFER | SA_ONSTACK};

    sigaltstack(&stack, NULL);
    for (size_t i = 0; i < sizeof numbers / sizeof numbers[0]; i++) {
        sigaction(numbers[i], &action, NULL);
    }
}

/* Gives the program so much time of its own; none switches the clock off. */
static void set_clock(unsigned seconds)
{
    struct itimerval time = {.it_value.tv_sec = (time_t)seconds};
    setitimer(ITIMER_VIRTUAL, &time, NULL);
}

const char *watch(void (*doing)(void *), void *with, unsigned seconds)
{
    static bool caught = false;

    if (!caught) {
        catch_signals();
        caught = true;
    }
    int number = sigsetjmp(way_out, 0);
    if (number == 0) {
        set_clock(seconds);
        doing(with);
    }
    set_clock(0);
    if (number == 0) {
        return NULL;
    }
    return number == SIGVTALRM ? "a call did not end" : "a call faulted";
}
