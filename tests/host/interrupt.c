/*
 * Cuts a save off. Loaded into a program with LD_PRELOAD, it counts the system
 * calls of a save from its mkstemp on, which is call 1. INTERRUPT says what comes
 * of some of them, as "3=EIO" or "2=short 3=SIGKILL":
 *
 * an error   the call does nothing and fails with it
 * short      a write takes the first half of its bytes
 * a signal   is raised, and then the call is made
 *
 * INTERRUPT_STEPS names a file to which the name of each call is added, a line
 * each. The calls themselves go by names of the C library that are not taken
 * here.
 */
#include <errno.h>
#include <fcntl.h>
#include <signal.h>
#include <stdarg.h>
#include <stdbool.h>
#include <stdio.h>
#include <stdlib.h>
#include <string.h>
#include <sys/stat.h>
#include <sys/syscall.h>
#include <unistd.h>

typedef struct {
    const char *name;
    int number;
} named;

static const named ERRORS[] = {{"ENOSPC", ENOSPC}, {"EIO", EIO}, {"EINTR", EINTR}};
static const named SIGNALS[] = {
    {"SIGHUP", SIGHUP}, {"SIGINT", SIGINT}, {"SIGKILL", SIGKILL}, {"SIGQUIT", SIGQUIT}, {"SIGTERM", SIGTERM},
};

static long calls;

/* ---- What is to come of a call ---- */

/* The text behind "3=", or an empty one. */
static const char *way_of(long number)
{
    const char *at = getenv("INTERRUPT");

    while (at != NULL && *at != '\0') {
        char *behind;
        if (strtol(at, &behind, 10) == number && *behind == '=') {
            return behind + 1;
        }
        at = strchr(behind, ' ');
        at = at == NULL ? NULL : at + 1;
    }
    return "";
}

static bool is_way(const char *way, const char *name)
{
    size_t length = strlen(name);
    return strncmp(way, name, length) == 0 && (way[length] == ' ' || way[length] == '\0');
}

/* The number of the name, or 0. */
static int number_of(const char *way, const named *names, size_t count)
{
    for (size_t i = 0; i < count; i++) {
        if (is_way(way, names[i].name)) {
            return names[i].number;
        }
    }
    return 0;
}

static void record(const char *name)
{
    const char *file = getenv("INTERRUPT_STEPS");
    char line[40];
    int length = snprintf(line, sizeof line, "%s\n", name);
    int to = file == NULL ? -1 : openat(AT_FDCWD, file, O_WRONLY | O_CREAT | O_APPEND, 0666);

    if (to >= 0) {
        syscall(SYS_write, to, line, (size_t)length);
        syscall(SYS_close, to);
    }
}

/* Counts a call of a save; gives whether it is to be made. */
static bool goes_on(const char *name)
{
    if (calls == 0 && strcmp(name, "mkstemp") != 0) {
        return true;
    }
    calls++;
    record(name);
    const char *way = way_of(calls);
    int error = number_of(way, ERRORS, sizeof ERRORS / sizeof *ERRORS);
    int raised = number_of(way, SIGNALS, sizeof SIGNALS / sizeof *SIGNALS);
    if (raised != 0) {
        raise(raised);
    }
    if (error != 0) {
        errno = error;
    }
    return error == 0;
}

/* ---- The calls ---- */

int mkstemp(char *template)
{
    return goes_on("mkstemp") ? mkostemp(template, 0) : -1;
}

int open(const char *name, int flags, ...)
{
    va_list arguments;
    unsigned mode = 0;

    if ((flags & O_CREAT) != 0) {
        va_start(arguments, flags);
        mode = va_arg(arguments, unsigned);
        va_end(arguments);
    }
    return goes_on("open") ? openat(AT_FDCWD, name, flags, mode) : -1;
}

ssize_t write(int to, const void *bytes, size_t length)
{
    if (!goes_on("write")) {
        return -1;
    }
    if (calls > 0 && is_way(way_of(calls), "short")) {
        length /= 2;
    }
    return (ssize_t)syscall(SYS_write, to, bytes, length);
}

int fsync(int file)
{
    return goes_on("fsync") ? (int)syscall(SYS_fsync, file) : -1;
}

int fchmod(int file, mode_t mode)
{
    return goes_on("fchmod") ? (int)syscall(SYS_fchmod, file, mode) : -1;
}

/* One that fails has closed the file all the same. */
int close(int file)
{
    bool good = goes_on("close");
    int error = errno;
    int closed = (int)syscall(SYS_close, file);

    if (!good) {
        errno = error;
    }
    return good ? closed : -1;
}

int rename(const char *from, const char *to)
{
    return goes_on("rename") ? renameat(AT_FDCWD, from, AT_FDCWD, to) : -1;
}
