/* Preloaded: every 20 milliseconds a signal comes whose handler does nothing, and a call that it
 * interrupts isn't restarted. So a read that waits for its input ends with EINTR. The first one that
 * does makes the file that INTERRUPT_REPORT names. */
#define _GNU_SOURCE
#include <errno.h>
#include <fcntl.h>
#include <signal.h>
#include <stdlib.h>
#include <sys/syscall.h>
#include <sys/time.h>
#include <unistd.h>

static const char *report;

static void do_nothing(int number)
{
    (void)number;
}

__attribute__((constructor)) static void begin(void)
{
    struct sigaction action = {.sa_handler = do_nothing};
    struct itimerval every = {{0, 20000}, {0, 20000}};

    report = getenv("INTERRUPT_REPORT");
    if (report == NULL || sigemptyset(&action.sa_mask) != 0
        || sigaction(SIGALRM, &action, NULL) != 0 || setitimer(ITIMER_REAL, &every, NULL) != 0)
        _exit(125);
}

static void note(void)
{
    int file = open(report, O_WRONLY | O_CREAT | O_CLOEXEC, 0600);

    if (file < 0 || close(file) != 0)
        _exit(125);
    errno = EINTR;
}

ssize_t read(int file, void *buffer, size_t size)
{
    ssize_t count = syscall(SYS_read, file, buffer, size);

    if (count < 0 && errno == EINTR)
        note();
    return count;
}
