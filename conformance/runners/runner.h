/* What the runners in C share: one case a line of standard input, fields parted by tabs,
 *
 *   ID MODE ETYPE KEY SENDER RECEIVER RECEIVER_REQUIRED TIME SECONDS MICROSECONDS SKEW NUMBER
 *   TIME_OR_NUMBER RECORDS MESSAGES
 *
 * and one line out for each: ID, a tab, and a verdict for each message, parted by commas. A verdict is
 * ok:HEX, no:CODE, or na where this implementation can't be given the demand. README.md describes the
 * fields. */
#ifndef RUNNER_H
#define RUNNER_H
#include <stdint.h>
#include <stdio.h>
#include <stdlib.h>
#include <string.h>

enum { FIELDS = 15 };

enum time_asked { TIME_IGNORED, TIME_IF_PRESENT, TIME_REQUIRED, TIME_ABSENT_MICROSECONDS_ARE_0 };

struct bytes { size_t size; unsigned char *at; };
struct host { int present; int32_t type; struct bytes address; };
struct asked {
    const char *id;
    int safe, etype, receiver_required;
    enum time_asked time;
    int numbered, time_or_number, records, single;
    struct bytes key;
    struct host sender, receiver;
    int64_t seconds;
    int microseconds;
    long skew;
    uint32_t number;
};

static int digit(char c)
{
    return c <= '9' ? c - '0' : c - 'a' + 10;
}

static struct bytes unhex(const char *text, size_t length)
{
    struct bytes found = { length / 2, malloc(length / 2 + 1) };
    if (found.at == NULL)
        exit(3);
    for (size_t place = 0; place < found.size; place++)
        found.at[place] = (unsigned char)(16 * digit(text[2 * place]) + digit(text[2 * place + 1]));
    return found;
}

static struct host host_of(const char *text)
{
    struct host found = { 0 };
    const char *colon = strchr(text, ':');
    if (colon == NULL)
        return found;
    found.present = 1;
    found.type = (int32_t)strtol(text, NULL, 10);
    found.address = unhex(colon + 1, strlen(colon + 1));
    return found;
}

static void say_ok(const void *at, size_t size)
{
    static const char digits[] = "0123456789abcdef";
    fputs("ok:", stdout);
    for (size_t place = 0; place < size; place++) {
        unsigned char byte = ((const unsigned char *)at)[place];
        putchar(digits[byte / 16]);
        putchar(digits[byte % 16]);
    }
}

static void say_no(long code) { printf("no:%ld", code); }

/* Each runner has these. `begin` answers 0 where the demand can't be given. */
static int begin(const struct asked *);
static void take(const struct asked *, struct bytes message);
static void end(const struct asked *);

static struct asked asked_of(char *line)
{
    char *field[FIELDS];
    for (int place = 0; place < FIELDS; place++)
        field[place] = strsep(&line, "\t");
    return (struct asked){
        .id = field[0], .safe = field[1][0] == 's', .etype = atoi(field[2]),
        .key = unhex(field[3], strlen(field[3])), .sender = host_of(field[4]),
        .receiver = host_of(field[5]), .receiver_required = atoi(field[6]),
        .time = (enum time_asked)atoi(field[7]), .seconds = atoll(field[8]),
        .microseconds = atoi(field[9]), .skew = atol(field[10]), .numbered = field[11][0] != '-',
        .number = (uint32_t)strtoul(field[11], NULL, 10), .time_or_number = atoi(field[12]),
        .records = atoi(field[13]), .single = strchr(field[14], ',') == NULL };
}

/* Gives the messages to the implementation in turn. */
static void run_case(const struct asked *asked, char *messages)
{
    int can = begin(asked), first = 1;
    for (char *one; (one = strsep(&messages, ",")) != NULL; first = 0) {
        struct bytes message = unhex(one, one[0] == '.' ? 0 : strlen(one));
        if (!first)
            putchar(',');
        if (can)
            take(asked, message);
        else
            fputs("na", stdout);
        free(message.at);
    }
    if (can)
        end(asked);
}

static int run(void)
{
    char *line = NULL;
    size_t room = 0;
    ssize_t length;
    while ((length = getline(&line, &room, stdin)) > 0) {
        line[length - 1] = 0;
        char *messages = strrchr(line, '\t') + 1;
        struct asked asked = asked_of(line);
        printf("%s\t", asked.id);
        fflush(stdout);
        run_case(&asked, messages);
        putchar('\n');
        fflush(stdout);
        free(asked.key.at);
        free(asked.sender.address.at);
        free(asked.receiver.address.at);
    }
    free(line);
    return 0;
}
#endif
