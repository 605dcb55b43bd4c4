#include "signals.h"

#include <errno.h>
#include <signal.h>
#include <stddef.h>
#include <stdint.h>
#include <stdio.h>
#include <sys/eventfd.h>
#include <unistd.h>

enum { PATIENCE = 4 }; /* seconds for an end in order */

/* Of handlers and of threads: all is read and written atomically. */
static int ending, status, hung_up;
static int descriptor = -1; /* made before there are threads */

static void end_in_time(void)
{
    const uint64_t one = 1;
    int before = errno;
    if (__atomic_exchange_n(&ending, 1, __ATOMIC_SEQ_CST))
        return;
    (void)alarm(PATIENCE); /* what was left of another: there is none */
    if (write(descriptor, &one, sizeof one) < 0)
        errno = before; /* who waits wakes within some seconds all the same */
}

static void note(int number)
{
    (void)number;
    end_in_time();
}

/* Something still waits, as for a server that is cut off. A log line may wait for a lock here. */
static void leave(int number)
{
    (void)number;
    _exit(__atomic_load_n(&status, __ATOMIC_SEQ_CST));
}

void end_by_signals(void)
{
    const int numbers[] = { SIGTERM, SIGINT, SIGALRM };
    size_t i;
    descriptor = eventfd(0, EFD_CLOEXEC | EFD_NONBLOCK);
    if (descriptor < 0)
        end_at_once("there is no descriptor for the end");
    for (i = 0; i < sizeof numbers / sizeof *numbers; i++) {
        struct sigaction action = { .sa_handler = numbers[i] == SIGALRM ? leave : note };
        if (sigaction(numbers[i], &action, NULL) != 0)
            end_now(); /* never: all may be caught */
    }
}

static void note_hangup(int number)
{
    (void)number;
    __atomic_store_n(&hung_up, 1, __ATOMIC_SEQ_CST);
}

void note_hangups(void)
{
    struct sigaction action = { .sa_handler = note_hangup };
    if (sigaction(SIGHUP, &action, NULL) != 0)
        end_now(); /* never: it may be caught */
}

int has_hung_up(void)
{
    return __atomic_exchange_n(&hung_up, 0, __ATOMIC_SEQ_CST);
}

int is_ending(void)
{
    return __atomic_load_n(&ending, __ATOMIC_SEQ_CST);
}

int ending_descriptor(void)
{
    return descriptor;
}

void end_now(void)
{
    __atomic_store_n(&status, 1, __ATOMIC_SEQ_CST);
    end_in_time();
}

void end_at_once(const char *what)
{
    /* Nobody else can be told if this can't be written. */
    (void)fprintf(stderr, "level=error event=impossible text=\"%s\"\n", what);
    _exit(1);
}
