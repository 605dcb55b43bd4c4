/* Tells the numbers of frames: of each line of the input, SESSION FRAME with the frame in
 * hexadecimal digits, a line with its number, or '-' if it doesn't open.
 *     numbers SESSIONS */
#include "clock.h"
#include "sessions.h"

#include <stdio.h>
#include <stdlib.h>
#include <string.h>

enum { DIGITS = 2 * KRBRELAY_FRAME_LIMIT + 1 };

/* The bytes of hexadecimal digits, which take their place; answers how many. */
static size_t read_digits(char *digits)
{
    size_t i, len = strlen(digits) / 2;
    for (i = 0; i < len; i++) {
        const char two[] = { digits[2 * i], digits[2 * i + 1], 0 };
        digits[i] = (char)strtoul(two, NULL, 16);
    }
    return len;
}

/* The number at which a frame was sealed, whatever is demanded; 0 if it doesn't open. There is room for its text. */
static int opened_number(struct sessions *sessions, const char *session, const uint8_t *frame, size_t len,
                         uint8_t *text, unsigned long *number)
{
    const struct krbrelay_demand any = { 0 };
    struct krbrelay_opener opener = { 0 };
    struct krbrelay_expect expect = { 0 };
    struct krbrelay_moment now = read_clock();
    struct krbrelay_carried carried = { 0 };
    enum krbrelay_answer answer;
    struct session of;
    size_t size;
    if (!sessions_find(sessions, session, &of))
        return 0;
    expect.mode = of.mode;
    answer = krbrelay_opener_new(&opener, of.etype, of.key, of.key_len, &expect);
    if (answer == KRBRELAY_OK)
        answer = krbrelay_opener_open(&opener, frame, len, &any, &now, text, KRBRELAY_FRAME_LIMIT,
                                      &size, &carried);
    krbrelay_opener_free(&opener);
    *number = carried.number;
    return answer == KRBRELAY_OK && carried.has_number;
}

int main(int count, char **words)
{
    struct sessions *sessions = count == 2 ? sessions_read(words[1]) : NULL;
    char name[64], *digits = malloc(DIGITS);
    uint8_t *text = malloc(KRBRELAY_FRAME_LIMIT);
    unsigned long number;
    if (sessions == NULL || digits == NULL || text == NULL)
        return 1;
    while (scanf("%63s %2010000s", name, digits) == 2) {
        size_t len = read_digits(digits);
        if (opened_number(sessions, name, (const uint8_t *)digits, len, text, &number))
            printf("%lu\n", number);
        else
            puts("-");
    }
    free(digits);
    free(text);
    sessions_forget(sessions);
    return 0;
}
