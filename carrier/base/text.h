/* Texts that are written into a room that the caller has. */
#ifndef TEXT_H
#define TEXT_H

#include <stddef.h>
#include <stdint.h>

/* What there is no room for is left out: for what people read. */
void write_cut(char *to, size_t room, const char *format, ...)
    __attribute__((format(printf, 3, 4)));

/* The same of a text as it is; NULL is "". */
void copy_cut(char *to, size_t room, const char *text);

/* All of it has room, whatever is written: else the program ends (end_at_once). For names, numbers
 * and statements, which mean something else where an end is missing. */
void write_whole(char *to, size_t room, const char *format, ...)
    __attribute__((format(printf, 3, 4)));

/* Copies a text that has room: 1, or 0 if it hasn't, or is NULL. */
int copy_text(char *to, size_t room, const char *text);

/* The order of two names, or of structs that begin with one, for trees of <search.h>. */
int by_name(const void *one, const void *other);

/* Writes a '?' over each byte that isn't of a character of UTF-8. */
void make_utf8(char *text);

/* Bytes as digits, two each, with a zero after them; and back: 1, or 0 if the text is none of so
 * many bytes at most. */
void write_hex(const uint8_t *bytes, size_t len, char *to);
int read_hex(const char *text, uint8_t *bytes, size_t room, size_t *len);

#endif
