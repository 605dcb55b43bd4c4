#include "option_words.h"

#include <krbrelay.h>
#include <stdarg.h>
#include <stdio.h>
#include <stdlib.h>
#include <string.h>

/* Reads the digits at the begin of a text, and moves it past them. */
static int read_digits(const char **at, uint64_t high, uint64_t *number)
{
    const char *digit = *at;
    *number = 0;
    for (; *digit >= '0' && *digit <= '9'; digit++) {
        uint64_t value = (uint64_t)(*digit - '0');
        if (value > high || *number > (high - value) / 10)
            return 0;
        *number = 10 * *number + value;
    }
    if (digit == *at)
        return 0;
    *at = digit;
    return 1;
}

int read_number(const char *word, uint64_t low, uint64_t high, uint64_t *number)
{
    return read_digits(&word, high, number) && *word == 0 && *number >= low;
}

unsigned option_number(const char *program, const char *option, const char *word, uint64_t low,
                       uint64_t high)
{
    uint64_t number = 0;
    if (read_number(word, low, high, &number))
        return (unsigned)number;
    end_with(2, "%s: --%s '%s': name a number from %llu to %llu\n", program, option, word,
             (unsigned long long)low, (unsigned long long)high);
}

void end_with(int status, const char *format, ...)
{
    FILE *to = status == 0 ? stdout : stderr;
    va_list values;
    int is_printed;
    va_start(values, format);
    is_printed = vfprintf(to, format, values) >= 0 && fflush(to) == 0;
    va_end(values);
    exit(is_printed ? status : 1);
}

void end_with_version(const char *program)
{
    uint32_t version = krbrelay_version();
    end_with(0, "%s of krbrelay %u.%u.%u\n", program, version >> 16, version >> 8 & 0xff,
             version & 0xff);
}

/* Reads N or N-M, and answers how many that are. */
static unsigned read_range(const char **at, unsigned limit, unsigned char *is_there)
{
    uint64_t low, high, it;
    if (!read_digits(at, limit - 1, &low))
        return 0;
    high = low;
    if (**at == '-') {
        ++*at;
        if (!read_digits(at, limit - 1, &high) || high < low)
            return 0;
    }
    for (it = low; it <= high; it++) {
        if (is_there[it])
            return 0;
        is_there[it] = 1;
    }
    return (unsigned)(high - low + 1);
}

unsigned read_ranges(const char *word, unsigned limit, unsigned char *is_there)
{
    unsigned count = 0, more;
    memset(is_there, 0, limit);
    for (;;) {
        more = read_range(&word, limit, is_there);
        if (more == 0)
            return 0;
        count += more;
        if (*word == 0)
            return count;
        if (*word++ != ',')
            return 0;
    }
}
