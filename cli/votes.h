/*
 * An installer's sheet of votes, for the command and for the console.
 */
#ifndef VOTES_H
#define VOTES_H

/* The words are those behind "votes": "2 1 1 read 2 write 3". Prints what they
 * stand for and gives STATUS_DONE. If the store refuses them, STATUS_NO, and if
 * they cannot be read, STATUS_TROUBLE: why says so. */
int print_votes(char **words, int count, char *why);

#endif
