/* Tests the log by what log.h says of it:  log_test */
#include "check.h"
#include "clock.h"
#include "log.h"

#include <errno.h>
#include <string.h>
#include <unistd.h>

enum { SIZE = 8192, TIMES = 20, LONG = 3000, SECOND = 1100 };

/* The next line that stands in the file in the place of standard error, from its level on; "" if
 * there is none. */
static const char *logged(void)
{
    static char line[SIZE];
    static off_t at;
    ssize_t had = pread(STDERR_FILENO, line, sizeof line - 1, at);
    const char *level, *end = had > 0 ? memchr(line, '\n', (size_t)had) : NULL;
    if (end == NULL)
        return "";
    line[end + 1 - line] = 0;
    at += end + 1 - line;
    level = strstr(line, " level=");
    check(level == line + strlen("time=2026-11-27T04:13:13.042Z") && strncmp(line, "time=", 5) == 0
              && level[-1] == 'Z', "a line begins with its time");
    return level != NULL ? level + 1 : line;
}

static void check_line(const char *wanted)
{
    check(strcmp(logged(), wanted) == 0, wanted);
}

static void test_values(void)
{
    log_fact(LEVEL_INFO, "values", field_text("plain", "tom-7._:/@%+"), field_number("number", 0),
             field_number("most", UINT64_MAX), field_seconds("seconds", 1234567890));
    check_line("level=info event=values plain=tom-7._:/@%+ number=0 most=18446744073709551615"
               " seconds=1.235\n");
    log_fact(LEVEL_WARNING, "quoted", field_text("none", ""), field_text("null", NULL),
             field_text("space", "a b"), field_text("equal", "a=b"));
    check_line("level=warning event=quoted none=\"\" null=\"\" space=\"a b\" equal=\"a=b\"\n");
    log_fact(LEVEL_ERROR, "escaped", field_text("quote", "a\"b\\c"),
             field_text("bytes", "\x01\n\xc3\xa4\x7f"), field_text("end", "a b\r\n\n"));
    check_line("level=error event=escaped quote=\"a\\\"b\\\\c\" bytes=\"\\x01\\x0a\\xc3\\xa4\\x7f\""
               " end=\"a b\"\n");
    errno = ENOENT;
    log_system("call", "open");
    check_line("level=error event=call of=open text=\"No such file or directory\"\n");
}

/* A value that is too long is cut, and the line stays one. */
static void test_long(void)
{
    char text[LONG];
    const char *line;
    memset(text, '"', sizeof text - 1);
    text[sizeof text - 1] = 0;
    log_fact(LEVEL_INFO, "long", field_text("text", text), field_text("more", text));
    line = logged();
    check(strlen(line) < 2048 && strncmp(line, "level=info event=long text=\"\\\"\\\"", 31) == 0,
          "a long value is cut");
    check(line[0] != 0 && strcmp(line + strlen(line) - 2, "\"\n") == 0, "it ends by its quote");
    check_line("");
}

static void test_limit(void)
{
    int i;
    for (i = 0; i < TIMES; i++)
        log_fact(LEVEL_INFO, "often", field_number("place", (uint64_t)i));
    log_fact(LEVEL_INFO, "other", field_number("place", 0));
    check_line("level=info event=often place=0\n");
    for (i = 1; i < 5; i++)
        check(strncmp(logged(), "level=info event=often place=", 29) == 0, "five at once");
    check_line("level=info event=other place=0\n");
    pause_milliseconds(SECOND);
    log_fact(LEVEL_INFO, "often", field_number("place", TIMES));
    check_line("level=info event=often left_out=15 place=20\n");
    log_fact(LEVEL_INFO, "often", field_number("place", 0));
    check_line("");
    log_numbers("paced", field_number("place", 0));
    check_line("level=info event=paced place=0\n");
    log_end();
    check_line("level=info event=lines_left_out of=often lines=1\n");
    log_end();
    check_line("");
}

int main(int count, char **words)
{
    FILE *file = tmpfile();
    check_only(1, count, words);
    check(file != NULL && dup2(fileno(file), STDERR_FILENO) >= 0,
          "a file in the place of standard error");
    RUN(test_values());
    RUN(test_long());
    RUN(test_limit());
    return check_status("log_test");
}
