/* Checks of the tests in C. One that doesn't hold is printed with its place, and the last line of a program has the
 * counts. Words of the command line may name the tests that are to run: without one, all run. */
#ifndef CHECK_H
#define CHECK_H
#include <stdio.h>
#include <stdlib.h>
#include <string.h>

static int checks_held, checks_failed, check_names, check_runs;
static char **check_named;
static unsigned long long check_calls; /* that a fuzzer has made */

/* Counts a fact, also in threads. */
static inline void check_counted(int holds, const char *what, const char *file, int line)
{
    __atomic_fetch_add(holds ? &checks_held : &checks_failed, 1, __ATOMIC_RELAXED);
    if (!holds)
        printf("%s:%d: not so: %s\n", file, line, what);
}

#define CHECK(fact) check_counted((fact) ? 1 : 0, #fact, __FILE__, __LINE__)

/* A call of the library that is done, and one that refuses an argument. */
#define IS(call) CHECK((call) == KRBRELAY_OK)
#define IS_NOT(call) CHECK((call) == KRBRELAY_ARGUMENT)

/* A fact without which nothing after it makes sense: if it doesn't hold the program ends. */
static inline void check(int holds, const char *what)
{
    __atomic_fetch_add(&checks_held, 1, __ATOMIC_RELAXED);
    if (!holds) {
        printf("FAILED: %s\n", what);
        exit(1);
    }
}

/* The same of a fuzzer, which ends so that a debugger can be asked for more. */
static inline void check_holds(int holds, const char *what, const char *file, int line)
{
    if (!holds) {
        fprintf(stderr, "%s:%d: after %llu calls: not so: %s\n", file, line, check_calls, what);
        abort();
    }
}

#define HOLDS(fact) check_holds((fact) ? 1 : 0, #fact, __FILE__, __LINE__)

/* The tests that are to run, from this word of the command line on. */
static inline void check_only(int first, int count, char **words)
{
    check_names = count > first ? count - first : 0;
    check_named = words + first;
}

/* Whether a test is asked for. A call has the name of its function. */
static inline int check_is_asked(const char *call)
{
    size_t size = strcspn(call, "(");
    int i, is_asked = check_names == 0;
    for (i = 0; i < check_names; i++)
        is_asked |= strlen(check_named[i]) == size && strncmp(check_named[i], call, size) == 0;
    check_runs += is_asked;
    return is_asked;
}

#define RUN(call) \
    do { \
        if (check_is_asked(#call)) \
            call; \
    } while (0)

/* Prints the counts, and answers the status of the program. */
static inline int check_status(const char *what)
{
    if (check_names > 0 && check_runs == 0) {
        printf("%s: there is no such test\n", what);
        return 2;
    }
    printf("%s: %d checks held, %d failed\n", what, checks_held, checks_failed);
    return checks_failed != 0;
}
#endif
