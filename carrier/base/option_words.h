/* Numbers in words of command lines and files: digits alone, within a range. */
#ifndef OPTION_WORDS_H
#define OPTION_WORDS_H

#include <stdint.h>

/* Reads a number from low to high: 1, or 0 if the word is none. */
int read_number(const char *word, uint64_t low, uint64_t high, uint64_t *number);

/* The same for an option of a command line, which ends with status 2 and a message if the word is
 * no such number. */
unsigned option_number(const char *program, const char *option, const char *word, uint64_t low,
                       uint64_t high);

/* Prints a text, to standard output if the status is 0 and else to standard error, and ends the
 * program with the status, or with 1 if the text can't be printed. */
void end_with(int status, const char *format, ...) __attribute__((format(printf, 2, 3), noreturn));

/* The same of the program's name and the version of libkrbrelay. */
void end_with_version(const char *program) __attribute__((noreturn));

/* Reads numbers below `limit` and ranges of them, such as "0-3,7": sets is_there[N] for each, and
 * answers how many there are; 0 if the word isn't of that form, or names one twice. */
unsigned read_ranges(const char *word, unsigned limit, unsigned char *is_there);

#endif
