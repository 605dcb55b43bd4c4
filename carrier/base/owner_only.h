/* Files with keys, passwords or texts, which only their owner may use. */
#ifndef OWNER_ONLY_H
#define OWNER_ONLY_H

#include <stddef.h>
#include <sys/stat.h>

/* The bytes of a file and, after them, a newline unless they end by one, and a zero. Tells what the
 * file was. NULL, with a line of the log, if it can't be read, or may be used by others than its
 * owner. End it by owner_only_forget. */
char *owner_only_read(const char *path, size_t *size, struct stat *is);

/* Whether a file is its owner's alone, or isn't there: 1, or 0 with a line of the log. */
int owner_only_is(const char *path);

/* Overwrites and frees it. */
void owner_only_forget(char *text, size_t size);

#endif
