/*
 * Lines of words as people type them: blanks between the words, any case.
 */
#ifndef WORDS_H
#define WORDS_H

#include <stdbool.h>
#include <stddef.h>
#include <stdint.h>

/* No line that means something has more words: votes has 16 and six more. */
enum { WORDS_MOST = 40, WHY_ROOM = 512 };

/* Splits the text in place; gives how many words there are, at most WORDS_MOST
 * of which are noted. What no keyboard types becomes a question mark. */
int split_words(char *text, size_t length, char *words[WORDS_MOST]);

/* Turns the words to lower case. */
void lower_words(char **words, int count);

/* Whether the words begin with those of the phrase; gives how many these are,
 * or 0. */
int begins_with(char **words, int count, const char *phrase);

/* A decimal number up to the most; if the word is none, why says so. */
bool number_from_word(uint64_t *number, const char *word, uint64_t most, char *why);

/* Why a line is wrong; long words are cut. */
bool complain(char *why, const char *format, ...) __attribute__((format(printf, 2, 3)));

#endif
