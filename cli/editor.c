#include "editor.h"

#include <errno.h>
#include <signal.h>
#include <stdio.h>
#include <stdlib.h>
#include <string.h>
#include <sys/ioctl.h>
#include <termios.h>
#include <unistd.h>

enum { LINE_ROOM = 4096, HISTORY_MOST = 1000, COLUMNS_USUAL = 80 };

/* Keys by the bytes that terminals send; those above 255 come behind escape. */
enum {
    CTRL_A = 1,
    CTRL_B = 2,
    CTRL_C = 3,
    CTRL_D = 4,
    CTRL_E = 5,
    CTRL_F = 6,
    CTRL_H = 8,
    CTRL_K = 11,
    CTRL_L = 12,
    CTRL_N = 14,
    CTRL_P = 16,
    CTRL_U = 21,
    CTRL_W = 23,
    CTRL_Z = 26,
    ESCAPE = 27,
    DELETE_BACK = 127,
    KEY_UP = 256,
    KEY_DOWN,
    KEY_RIGHT,
    KEY_LEFT,
    KEY_HOME,
    KEY_END,
    KEY_DELETE,
    KEY_NONE,
    KEY_GONE /* the input has ended */
};

/* ---- The terminal ---- */

static struct termios usual;
static volatile sig_atomic_t editing;
static volatile sig_atomic_t keys_taken; /* the terminal is not as usual */

bool somebody_types(void)
{
    return isatty(STDIN_FILENO) != 0;
}

/* Keys come one by one and are not shown by the terminal; output is as usual. */
static void take_keys(void)
{
    struct termios keys = usual;
    keys.c_iflag &= ~(tcflag_t)(ICRNL | IXON);
    keys.c_lflag &= ~(tcflag_t)(ICANON | ECHO | ISIG | IEXTEN);
    keys.c_cc[VMIN] = 1;
    keys.c_cc[VTIME] = 0;
    if (tcsetattr(STDIN_FILENO, TCSADRAIN, &keys) == 0) {
        keys_taken = 1;
    }
}

/* While the program is stopped the terminal is another's, and is left alone. */
static void give_back(void)
{
    if (keys_taken) {
        keys_taken = 0;
        tcsetattr(STDIN_FILENO, TCSADRAIN, &usual);
    }
}

/* The terminal is put back before a signal ends the program. */
static void end_by_signal(int number)
{
    give_back();
    signal(number, SIG_DFL);
    raise(number);
}

void editor_start(void)
{
    static const int ending[] = {SIGHUP, SIGINT, SIGQUIT, SIGTERM};
    const char *kind = getenv("TERM");

    if (!somebody_types() || !isatty(STDOUT_FILENO) || kind == NULL || strcmp(kind, "dumb") == 0 ||
        tcgetattr(STDIN_FILENO, &usual) != 0) {
        return;
    }
    for (size_t i = 0; i < sizeof ending / sizeof *ending; i++) {
        signal(ending[i], end_by_signal);
    }
    editing = 1;
    atexit(give_back);
    take_keys();
}

size_t screen_columns(void)
{
    struct winsize size;
    if (ioctl(STDOUT_FILENO, TIOCGWINSZ, &size) != 0) {
        return 0;
    }
    return size.ws_col == 0 ? COLUMNS_USUAL : size.ws_col;
}

/* ---- Keys ---- */

static int read_byte(void)
{
    unsigned char byte;
    ssize_t got;

    do {
        got = read(STDIN_FILENO, &byte, 1);
    } while (got < 0 && errno == EINTR);
    return got == 1 ? byte : KEY_GONE;
}

/* A key that is a letter behind escape and a bracket. */
static int key_of_letter(int letter)
{
    switch (letter) {
    case 'A':
        return KEY_UP;
    case 'B':
        return KEY_DOWN;
    case 'C':
        return KEY_RIGHT;
    case 'D':
        return KEY_LEFT;
    case 'H':
        return KEY_HOME;
    case 'F':
        return KEY_END;
    default:
        return KEY_NONE;
    }
}

/* A key that is a number and a tilde. */
static int key_of_number(int number)
{
    switch (number) {
    case 1:
    case 7:
        return KEY_HOME;
    case 3:
        return KEY_DELETE;
    case 4:
    case 8:
        return KEY_END;
    default:
        return KEY_NONE;
    }
}

/* What follows escape; keys that are not known are passed over whole. */
static int read_escaped(void)
{
    int number = 0;
    bool first = true; /* the first number says which key; those behind it, with what others */
    int byte = read_byte();

    if (byte != '[' && byte != 'O') {
        return byte == KEY_GONE ? KEY_GONE : KEY_NONE;
    }
    byte = read_byte();
    if (byte == '[') { /* F1 to F5 of a Linux console: one letter more */
        return read_byte() == KEY_GONE ? KEY_GONE : KEY_NONE;
    }
    bool known = byte < '<' || byte > '?'; /* else a report of the terminal */
    for (; byte >= ' ' && byte <= '?'; byte = read_byte()) {
        first = first && byte != ';';
        if (first && byte >= '0' && byte <= '9') {
            number = (10 * number + byte - '0') % 1000;
        }
    }
    if (byte == KEY_GONE || !known) {
        return byte == KEY_GONE ? KEY_GONE : KEY_NONE;
    }
    return byte == '~' ? key_of_number(number) : key_of_letter(byte);
}

static int read_key(void)
{
    int byte = read_byte();
    return byte == ESCAPE ? read_escaped() : byte;
}

/* ---- The line ---- */

typedef struct {
    const char *prompt;
    char text[LINE_ROOM];
    size_t length;
    size_t cursor;
    size_t in_history; /* the line of the history that is shown, or its length */
    bool too_long;     /* more was typed than there is room for */
} edited;

/* Whether the byte goes on a character of several bytes (UTF-8). */
static bool goes_on(char byte)
{
    return ((unsigned char)byte & 0xC0) == 0x80;
}

/* The place one character before the place, or behind it. */
static size_t before(const edited *e, size_t at)
{
    while (at > 0 && goes_on(e->text[at - 1])) {
        at--;
    }
    return at > 0 ? at - 1 : 0;
}

static size_t behind(const edited *e, size_t at)
{
    do {
        at++;
    } while (at < e->length && goes_on(e->text[at]));
    return at < e->length ? at : e->length;
}

/* The columns that the bytes take, a column for each character. */
static size_t columns_of(const char *text, size_t length)
{
    size_t columns = 0;
    for (size_t i = 0; i < length; i++) {
        columns += !goes_on(text[i]);
    }
    return columns;
}

/* Shows the part of the line around the cursor that fits into the terminal's. */
static void show_line(const edited *e)
{
    size_t prompt = columns_of(e->prompt, strlen(e->prompt));
    size_t columns = screen_columns();
    size_t room = columns > prompt + 2 ? columns - prompt - 1 : 1;
    size_t from = e->cursor;
    size_t shown = 0;

    while (from > 0 && shown < room) {
        from = before(e, from);
        shown++;
    }
    size_t at = prompt + shown;
    size_t to = e->cursor;
    while (to < e->length && shown < room) {
        to = behind(e, to);
        shown++;
    }
    printf("\r%s%.*s\x1b[K\r\x1b[%zuC", e->prompt, (int)(to - from), e->text + from, at);
    fflush(stdout);
}

static void insert_byte(edited *e, char byte)
{
    if (e->length + 1 == sizeof e->text) {
        e->too_long = true;
        return;
    }
    memmove(e->text + e->cursor + 1, e->text + e->cursor, e->length - e->cursor);
    e->text[e->cursor] = byte;
    e->cursor++;
    e->length++;
}

/* Takes the bytes between the two places out; the cursor stands there. */
static void cut(edited *e, size_t from, size_t to)
{
    memmove(e->text + from, e->text + to, e->length - to);
    e->length -= to - from;
    e->cursor = from;
}

/* The word in front of the cursor, and the blanks behind it. */
static void cut_word(edited *e)
{
    size_t from = e->cursor;
    while (from > 0 && e->text[from - 1] == ' ') {
        from--;
    }
    while (from > 0 && e->text[from - 1] != ' ') {
        from--;
    }
    cut(e, from, e->cursor);
}

/* ---- The history ---- */

static char *history[HISTORY_MOST];
static size_t history_length;
static char unfinished[LINE_ROOM]; /* what was typed before the history was shown */

static void remember(const char *line)
{
    if (*line == '\0' || (history_length > 0 && strcmp(history[history_length - 1], line) == 0)) {
        return;
    }
    char *kept = strdup(line);
    if (kept == NULL) {
        return;
    }
    if (history_length == HISTORY_MOST) {
        free(history[0]);
        memmove(history, history + 1, (HISTORY_MOST - 1) * sizeof *history);
        history_length--;
    }
    history[history_length] = kept;
    history_length++;
}

static void recall(edited *e, size_t which)
{
    if (which > history_length) {
        return;
    }
    if (e->in_history == history_length) {
        memcpy(unfinished, e->text, e->length);
        unfinished[e->length] = '\0';
    }
    const char *line = which == history_length ? unfinished : history[which];
    e->in_history = which;
    e->length = strlen(line);
    e->cursor = e->length;
    memcpy(e->text, line, e->length);
}

/* ---- Editing ---- */

/* The terminal as usual, while the program is stopped. */
static void stop_here(void)
{
    give_back();
    raise(SIGTSTP);
    take_keys();
}

/* Keys that move the cursor, or show another line. */
static void move(edited *e, int key)
{
    switch (key) {
    case CTRL_A:
    case KEY_HOME:
        e->cursor = 0;
        break;
    case CTRL_E:
    case KEY_END:
        e->cursor = e->length;
        break;
    case CTRL_B:
    case KEY_LEFT:
        e->cursor = before(e, e->cursor);
        break;
    case CTRL_F:
    case KEY_RIGHT:
        e->cursor = behind(e, e->cursor);
        break;
    case CTRL_P:
    case KEY_UP:
        recall(e, e->in_history > 0 ? e->in_history - 1 : 0);
        break;
    case CTRL_N:
    case KEY_DOWN:
        recall(e, e->in_history + 1);
        break;
    default:
        break;
    }
}

/* Keys that change the line; the others move. */
static void change(edited *e, int key)
{
    switch (key) {
    case CTRL_H:
    case DELETE_BACK:
        cut(e, before(e, e->cursor), e->cursor);
        break;
    case CTRL_D:
    case KEY_DELETE:
        cut(e, e->cursor, behind(e, e->cursor));
        break;
    case CTRL_K:
        e->length = e->cursor;
        break;
    case CTRL_U:
        cut(e, 0, e->cursor);
        break;
    case CTRL_W:
        cut_word(e);
        break;
    case CTRL_L:
        printf("\x1b[H\x1b[2J");
        break;
    case CTRL_Z:
        stop_here();
        break;
    default:
        if ((key >= ' ' && key < KEY_UP) || key == '\t') {
            insert_byte(e, key == '\t' ? ' ' : (char)key);
        } else {
            move(e, key);
        }
        break;
    }
}

/* Edits the line until a key ends it; gives that key. */
static int edit(edited *e)
{
    int key = KEY_NONE;

    while (key != '\r' && key != '\n' && key != CTRL_C && key != KEY_GONE) {
        change(e, key);
        e->too_long = e->too_long && e->length > 0;
        show_line(e);
        key = read_key();
        if (key == CTRL_D && e->length == 0) {
            key = KEY_GONE;
        }
    }
    return key;
}

static line_result edit_line(const char *prompt, char **line, size_t *length)
{
    static edited e;

    e.prompt = prompt;
    e.length = 0;
    e.cursor = 0;
    e.in_history = history_length;
    e.too_long = false;
    int key = edit(&e);
    printf(key == CTRL_C ? "^C\n" : "\n");
    if (key == KEY_GONE) {
        return LINE_END;
    }
    if (key == CTRL_C) {
        return LINE_DROPPED;
    }
    if (e.too_long) {
        printf("the line is too long, and is given up\n");
        return LINE_DROPPED;
    }
    e.text[e.length] = '\0';
    remember(e.text);
    *line = e.text;
    *length = e.length;
    return LINE_READ;
}

/* ---- Plain lines ---- */

static line_result plain_line(const char *prompt, char **line, size_t *length)
{
    static char *text;
    static size_t room;

    if (somebody_types()) {
        printf("%s", prompt);
    }
    fflush(stdout); /* who waits for the reply has it before the next line is read */
    ssize_t got = getline(&text, &room, stdin);
    if (got <= 0) {
        int error = errno;
        bool failed = ferror(stdin) && !somebody_types();
        clearerr(stdin); /* at a terminal more may come */
        errno = error;
        return failed ? LINE_FAILED : LINE_END;
    }
    *length = (size_t)got - (text[got - 1] == '\n');
    text[*length] = '\0';
    *line = text;
    return LINE_READ;
}

line_result read_line(const char *prompt, char **line, size_t *length)
{
    return editing ? edit_line(prompt, line, length) : plain_line(prompt, line, length);
}
