#include "options.h"
#include "option_words.h"

#include <getopt.h>
#include <stdio.h>
#include <stdlib.h>
#include <string.h>

enum { HELP = 256, VERSION, FIRST, COLUMN = 19 }; /* letters for getopt_long; where the usage says what a row means */

/* ---- The usage */

/* Whether all was printed is asked at the end. */
static void print_row(FILE *to, const struct option_row *row)
{
    const char *value = row->value != NULL ? row->value : "", *line = row->help, *end;
    int width = fprintf(to, "  --%s%s%s", row->word, *value != 0 ? " " : "", value);
    width = fprintf(to, "%*s", width < COLUMN - 1 ? COLUMN - width : 2, "");
    for (; width >= 0 && (end = strchr(line, '\n')) != NULL; line = end + 1)
        width = fprintf(to, "%.*s\n%*s", (int)(end - line), line, COLUMN, "");
    (void)fprintf(to, "%s\n", line); /* as above */
}

static void end_with_usage(const struct usage *usage, int status) __attribute__((noreturn));
static void end_with_usage(const struct usage *usage, int status)
{
    FILE *to = status == 0 ? stdout : stderr;
    size_t i;
    (void)fputs(usage->begin, to); /* it is asked below whether all was printed */
    for (i = 0; i < usage->count; i++)
        print_row(to, &usage->rows[i]);
    (void)fprintf(to, "  --help, --version\n%s", usage->end); /* as above */
    exit(fflush(to) == 0 && !ferror(to) ? status : 1);
}

void options_refuse(const struct usage *usage)
{
    end_with_usage(usage, 2);
}

/* ---- A command line */

static void put_number(const struct option_row *row, uint32_t number, void *options)
{
    memcpy((char *)options + row->at, &number, sizeof number);
}

/* What the numbers are where no word says so. */
static void put_initial(const struct usage *usage, void *options)
{
    size_t i;
    for (i = 0; i < usage->count; i++)
        if (usage->rows[i].kind == OPTION_NUMBER)
            put_number(&usage->rows[i], usage->rows[i].initial, options);
}

static void take_option(const char *program, const struct option_row *row, const char *word, void *options)
{
    void *at = (char *)options + row->at;
    const char *text = row->kind == OPTION_FILE && *word == 0 ? NULL : word;
    switch (row->kind) {
    case OPTION_TEXT:
    case OPTION_FILE:
        memcpy(at, &text, sizeof text);
        break;
    case OPTION_NUMBER:
        put_number(row, option_number(program, row->word, word, row->low, row->high), options);
        break;
    case OPTION_FLAG:
        *(int *)at = 1;
        break;
    case OPTION_TAKEN:
        row->take(options, word);
    }
}

/* The rows as getopt_long reads them; zeros are its end. */
static void list(const struct usage *usage, struct option known[OPTIONS_MOST + 3])
{
    size_t i;
    *known++ = (struct option){ "help", no_argument, NULL, HELP };
    *known++ = (struct option){ "version", no_argument, NULL, VERSION };
    for (i = 0; i < usage->count; i++)
        known[i] = (struct option){ usage->rows[i].word, usage->rows[i].value != NULL ? required_argument : no_argument,
                                    NULL, FIRST + (int)i };
}

void options_read(const struct usage *usage, int count, char **words, void *options)
{
    struct option known[OPTIONS_MOST + 3] = { { NULL, 0, NULL, 0 } };
    int letter;
    list(usage, known);
    put_initial(usage, options);
    while ((letter = getopt_long(count, words, "", known, NULL)) != -1)
        switch (letter) {
        case HELP: end_with_usage(usage, 0);
        case VERSION: end_with_version(usage->program);
        case '?': options_refuse(usage);
        default: take_option(usage->program, &usage->rows[letter - FIRST], optarg, options);
        }
    if (optind != count)
        options_refuse(usage);
}
