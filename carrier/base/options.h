/* The options of a program. Each is one row, from which follow the usage, what a command line may have, and where the
 * value goes. tools/tables writes the rows, of tables/options.toml. */
#ifndef OPTIONS_H
#define OPTIONS_H

#include <stddef.h>
#include <stdint.h>

enum { OPTIONS_MOST = 32 }; /* rows of a program at most */

enum option_kind {
    OPTION_TEXT,   /* a const char * */
    OPTION_FILE,   /* the same; NULL for an empty word, since units may have no file */
    OPTION_NUMBER, /* a uint32_t from low to high, and `initial` where the option isn't given */
    OPTION_FLAG,   /* an int, which is 1 then: it has no value */
    OPTION_TAKEN   /* what `take` makes of it */
};

/* --WORD VALUE, and what it means; its place in the program's struct of options. */
struct option_row {
    const char *word, *value, *help;
    enum option_kind kind;
    size_t at;
    uint64_t low, high;
    uint32_t initial;
    void (*take)(void *options, const char *word);
};

/* What stands before the rows, and after them. */
struct usage {
    const char *program, *begin, *end;
    const struct option_row *rows;
    size_t count;
};

/* Reads a command line. Ends the program with status 2 and a message if it is wrong, and with 0 after --help and
 * --version. */
void options_read(const struct usage *usage, int count, char **words, void *options);

/* Ends the program with the usage and status 2. */
void options_refuse(const struct usage *usage) __attribute__((noreturn));

#endif
