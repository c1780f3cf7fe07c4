#include "words.h"

#include <ctype.h>
#include <errno.h>
#include <inttypes.h>
#include <stdarg.h>
#include <stdio.h>
#include <stdlib.h>
#include <string.h>

static bool is_blank(char c)
{
    return c == ' ' || c == '\t' || c == '\r' || c == '\n' || c == '\v' || c == '\f';
}

int split_words(char *text, size_t length, char *words[WORDS_MOST])
{
    int count = 0;
    bool inside = false;

    for (size_t i = 0; i < length; i++) {
        if (is_blank(text[i])) {
            text[i] = '\0';
            inside = false;
            continue;
        }
        if (!isprint((unsigned char)text[i])) {
            text[i] = '?';
        }
        if (!inside) {
            if (count < WORDS_MOST) {
                words[count] = text + i;
            }
            count++;
            inside = true;
        }
    }
    return count;
}

void lower_words(char **words, int count)
{
    for (int i = 0; i < count; i++) {
        for (char *c = words[i]; *c != '\0'; c++) {
            *c = (char)tolower((unsigned char)*c);
        }
    }
}

int begins_with(char **words, int count, const char *phrase)
{
    int matched = 0;

    while (*phrase != '\0') {
        size_t length = strcspn(phrase, " ");
        if (matched == count || strlen(words[matched]) != length ||
            strncmp(words[matched], phrase, length) != 0) {
            return 0;
        }
        matched++;
        phrase += length;
        phrase += strspn(phrase, " ");
    }
    return matched;
}

bool number_from_word(uint64_t *number, const char *word, uint64_t most, char *why)
{
    if (*word == '\0' || strspn(word, "0123456789") != strlen(word)) {
        return complain(why, "'%.40s' is no number", word);
    }
    errno = 0;
    unsigned long long read = strtoull(word, NULL, 10);
    if (errno != 0 || read > most) {
        return complain(why, "'%.40s' is above %" PRIu64, word, most);
    }
    *number = read;
    return true;
}

bool complain(char *why, const char *format, ...)
{
    va_list arguments;

    va_start(arguments, format);
    vsnprintf(why, WHY_ROOM, format, arguments);
    va_end(arguments);
    return false;
}
