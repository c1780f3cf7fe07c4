#include "files.h"

#include "words.h"

#include <errno.h>
#include <fcntl.h>
#include <libgen.h>
#include <signal.h>
#include <stdlib.h>
#include <string.h>
#include <sys/stat.h>
#include <unistd.h>

/* ---- Reading ---- */

/* Why the bytes, which the library does not take, are no table. */
static bool complain_of_bytes(char *why, const char *name, const table *t, bool more)
{
    if (more) {
        return complain(why, "%.300s: longer than any table", name);
    }
    if (t->length < OSPREYSCREEN_HEAD_LENGTH) {
        return complain(why, "%.300s: %zu bytes, and the shortest table has %d", name, t->length,
                        OSPREYSCREEN_HEAD_LENGTH + OSPREYSCREEN_COPY_LENGTH);
    }
    head h = table_head(t);
    if (h.n < 1 || h.n > OSPREYSCREEN_STATIONS_MAX || h.m < 1 || h.m > OSPREYSCREEN_ITEMS_MAX) {
        return complain(why, "%.300s: no table", name);
    }
    if (t->length != OSPREYSCREEN_TABLE_LENGTH(h.n, h.m)) {
        return complain(why, "%.300s: not sound: %zu bytes, and %u stations and %u items have %u", name,
                        t->length, h.n, h.m, OSPREYSCREEN_TABLE_LENGTH(h.n, h.m));
    }
    return complain(why, "%.300s: not sound: bytes of its head or of a configuration are false", name);
}

FILE *open_to_read(const char *name)
{
    int from = open(name, O_RDONLY | O_NONBLOCK);
    FILE *file = from < 0 || fcntl(from, F_SETFL, 0) < 0 ? NULL : fdopen(from, "rb");

    if (from >= 0 && file == NULL) {
        close(from);
    }
    return file;
}

bool table_load(table *t, const char *name, char *why)
{
    static table read;
    uint8_t more;
    FILE *file = open_to_read(name);

    if (file == NULL) {
        return complain(why, "%.300s: %s", name, strerror(errno));
    }
    read.length = fread(read.bytes, 1, sizeof read.bytes, file);
    bool longer = fread(&more, 1, 1, file) != 0;
    int error = ferror(file) ? errno : 0;
    fclose(file);
    if (error != 0) {
        return complain(why, "%.300s: %s", name, strerror(error));
    }
    if (longer || !table_is_sound(&read)) {
        return complain_of_bytes(why, name, &read, longer);
    }
    *t = read;
    return true;
}

bool holds_table(const char *name)
{
    static table t;
    char why[WHY_ROOM];
    return table_load(&t, name, why);
}

bool item_of_table(uint64_t *item, const table *t, const char *word, char *why)
{
    unsigned last = table_head(t).m - 1;

    if (!number_from_word(item, word, UINT64_MAX, why)) {
        return false;
    }
    return *item <= last || complain(why, "there is no item %.40s: the items are 0 to %u", word, last);
}

/* ---- Writing ---- */

/* Writes all the bytes and has them on the disk. */
static bool write_all(int to, const uint8_t *bytes, size_t length)
{
    while (length > 0) {
        ssize_t written = write(to, bytes, length);
        if (written < 0 && errno != EINTR) {
            return false;
        }
        if (written > 0) {
            bytes += written;
            length -= (size_t)written;
        }
    }
    return fsync(to) == 0;
}

/* The permissions of the file, or those that a new one gets. */
static mode_t mode_for(const char *name)
{
    struct stat old;
    if (stat(name, &old) == 0) {
        return old.st_mode & 07777;
    }
    mode_t mask = umask(0);
    umask(mask);
    return 0666 & ~mask;
}

/* The new name is on the disk once its folder is. */
static void sync_folder(const char *name)
{
    char *copied = strdup(name);
    int folder = copied == NULL ? -1 : open(dirname(copied), O_RDONLY);

    if (folder >= 0) {
        fsync(folder);
        close(folder);
    }
    free(copied);
}

/* Writes the file under the beside name, and renames it. */
static bool replace_file(const char *name, char *beside, const void *bytes, size_t length, char *why)
{
    int to = mkstemp(beside);
    if (to < 0) {
        return complain(why, "%.300s: %s", name, strerror(errno));
    }
    bool good = write_all(to, bytes, length) && fchmod(to, mode_for(name)) == 0;
    int error = errno;
    if (close(to) != 0 && good) {
        good = false;
        error = errno;
    }
    if (good && rename(beside, name) != 0) {
        good = false;
        error = errno;
    }
    if (!good) {
        unlink(beside);
        return complain(why, "%.300s: %s", name, strerror(error));
    }
    sync_folder(name);
    return true;
}

/* Whether a file of this name may be written: it is not there, or it is empty or
 * of the kind. */
static bool may_write(const char *name, bool (*is_of_kind)(const char *name), char *why)
{
    struct stat old;

    if (stat(name, &old) != 0) {
        if (errno != ENOENT) {
            return complain(why, "%.300s: %s", name, strerror(errno));
        }
        return lstat(name, &old) != 0 ||
               complain(why, "%.300s: a link that leads to nothing; it is left as it is", name);
    }
    if (!S_ISREG(old.st_mode)) {
        return complain(why, "%.300s: no ordinary file; it is left as it is", name);
    }
    if (access(name, W_OK) != 0) {
        return complain(why, "%.300s: %s", name, strerror(errno));
    }
    return old.st_size == 0 || is_of_kind(name) ||
           complain(why, "%.300s: there is another sort of file; it is left as it is", name);
}

/* Signals that would end or stop the program wait until nothing is left beside
 * the file. */
static const int ENDING[] = {SIGHUP, SIGINT, SIGQUIT, SIGTERM, SIGTSTP};

/* A link is followed, so that what it leads to is replaced. */
bool file_save(const char *name, const void *bytes, size_t length,
               bool (*is_of_kind)(const char *name), char *why)
{
    static const char suffix[] = ".XXXXXX";
    sigset_t held, before;

    if (!may_write(name, is_of_kind, why)) {
        return false;
    }
    char *led = realpath(name, NULL);
    const char *file = led == NULL ? name : led;
    char *beside = malloc(strlen(file) + sizeof suffix);
    if (beside == NULL) {
        free(led);
        return complain(why, "%.300s: %s", name, strerror(errno));
    }
    strcpy(beside, file);
    strcat(beside, suffix);
    sigemptyset(&held);
    for (size_t i = 0; i < sizeof ENDING / sizeof *ENDING; i++) {
        sigaddset(&held, ENDING[i]);
    }
    sigprocmask(SIG_BLOCK, &held, &before);
    bool good = replace_file(file, beside, bytes, length, why);
    sigprocmask(SIG_SETMASK, &before, NULL);
    free(beside);
    free(led);
    return good;
}
