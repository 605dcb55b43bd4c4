#include "text.h"
#include "signals.h"

#include <stdarg.h>
#include <stdio.h>
#include <string.h>

void write_cut(char *to, size_t room, const char *format, ...)
{
    va_list values;
    va_start(values, format);
    if (vsnprintf(to, room, format, values) < 0)
        to[0] = 0;
    va_end(values);
}

void copy_cut(char *to, size_t room, const char *text)
{
    size_t len = text != NULL ? strnlen(text, room - 1) : 0;
    if (len > 0)
        memcpy(to, text, len);
    to[len] = 0;
}

void write_whole(char *to, size_t room, const char *format, ...)
{
    va_list values;
    int len;
    va_start(values, format);
    len = vsnprintf(to, room, format, values);
    va_end(values);
    if (len < 0 || (size_t)len >= room)
        end_at_once(format);
}

int copy_text(char *to, size_t room, const char *text)
{
    size_t len = text != NULL ? strlen(text) : room;
    if (len >= room)
        return 0;
    memcpy(to, text, len + 1);
    return 1;
}

int by_name(const void *one, const void *other)
{
    return strcmp(one, other);
}

/* How many bytes the character has that begins here; 0 if none of UTF-8 does (RFC 3629, section 4). */
static size_t character_at(const unsigned char *at)
{
    size_t more = at[0] < 0x80 ? 0 : at[0] >= 0xC2 && at[0] < 0xE0 ? 1 : at[0] >= 0xE0 && at[0] < 0xF0 ? 2
                  : at[0] >= 0xF0 && at[0] < 0xF5 ? 3 : SIZE_MAX;
    size_t i;
    if (more == SIZE_MAX || (at[0] == 0xE0 && at[1] < 0xA0) || (at[0] == 0xED && at[1] >= 0xA0)
        || (at[0] == 0xF0 && at[1] < 0x90) || (at[0] == 0xF4 && at[1] >= 0x90))
        return 0;
    for (i = 1; i <= more; i++)
        if (at[i] < 0x80 || at[i] >= 0xC0)
            return 0;
    return more + 1;
}

void make_utf8(char *text)
{
    size_t at = 0;
    while (text[at] != 0) {
        size_t len = character_at((const unsigned char *)text + at);
        if (len == 0)
            text[at] = '?';
        at += len > 0 ? len : 1;
    }
}

void write_hex(const uint8_t *bytes, size_t len, char *to)
{
    static const char digits[] = "0123456789abcdef";
    size_t i;
    for (i = 0; i < len; i++) {
        to[2 * i] = digits[bytes[i] >> 4];
        to[2 * i + 1] = digits[bytes[i] & 15];
    }
    to[2 * len] = 0;
}

static int digit_of(char it)
{
    if (it >= '0' && it <= '9')
        return it - '0';
    return it >= 'a' && it <= 'f' ? it - 'a' + 10 : -1;
}

int read_hex(const char *text, uint8_t *bytes, size_t room, size_t *len)
{
    size_t i, digits = text != NULL ? strlen(text) : 1;
    *len = digits / 2;
    if (digits % 2 != 0 || *len > room)
        return 0;
    for (i = 0; i < *len; i++) {
        int high = digit_of(text[2 * i]), low = digit_of(text[2 * i + 1]);
        if (high < 0 || low < 0)
            return 0;
        bytes[i] = (uint8_t)(high << 4 | low);
    }
    return 1;
}
