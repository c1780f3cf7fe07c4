/*
 * Tables in files, and files that are written whole or not at all.
 */
#ifndef FILES_H
#define FILES_H

#include "table.h"

/* Opens a file for reading. A pipe that nobody writes to is empty, and is not
 * waited for. */
FILE *open_to_read(const char *name);

/* Reads the file into the table; if it cannot be read or is not sound, the table
 * stays as it was and why says so. */
bool table_load(table *t, const char *name, char *why);

/* Writes the bytes to another name beside the file and then renames that: the
 * file is the old one or the new one, whenever this is cut off. A file is
 * replaced only if it is empty or recognised as one of the kind. */
bool file_save(const char *name, const void *bytes, size_t length,
               bool (*is_of_kind)(const char *name), char *why);

/* Whether the file holds a sound table. */
bool holds_table(const char *name);

/* The item of a word; if the table has no such item, why says so. */
bool item_of_table(uint64_t *item, const table *t, const char *word, char *why);

#endif
