/* A clock and a disk that a test changes while a program runs: a library that is preloaded. The file that the
 * variable CONDITIONS names has two numbers of 64 bits: seconds by which the wall clock is ahead, and
 * milliseconds that each sync of a file takes longer. */
#include <dlfcn.h>
#include <errno.h>
#include <fcntl.h>
#include <pthread.h>
#include <stdint.h>
#include <stdlib.h>
#include <sys/mman.h>
#include <sys/syscall.h>
#include <sys/time.h>
#include <time.h>
#include <unistd.h>

struct conditions {
    int64_t ahead; /* seconds */
    int64_t slow;  /* milliseconds */
};

enum { SLICE = 20000000 }; /* nanoseconds: so often a wait looks at the clock */

#define SECOND INT64_C(1000000000)

/* Without the file a test would see nothing of what it does: the program ends. */
static const volatile struct conditions *map_conditions(void)
{
    const char *path = getenv("CONDITIONS");
    int file = path != NULL ? open(path, O_RDONLY | O_CLOEXEC) : -1;
    void *found = mmap(NULL, sizeof(struct conditions), PROT_READ, MAP_SHARED, file, 0);
    if (file < 0 || found == MAP_FAILED)
        abort();
    close(file);
    return found;
}

static const volatile struct conditions *conditions(void)
{
    static const volatile struct conditions *found;
    if (found == NULL)
        found = map_conditions();
    return found;
}

/* ---- The clock */

int clock_gettime(clockid_t clock, struct timespec *now)
{
    int answer = (int)syscall(SYS_clock_gettime, clock, now);
    if (answer == 0 && clock == CLOCK_REALTIME)
        now->tv_sec += (time_t)conditions()->ahead;
    return answer;
}

time_t time(time_t *seconds)
{
    struct timespec now;
    clock_gettime(CLOCK_REALTIME, &now);
    if (seconds != NULL)
        *seconds = now.tv_sec;
    return now.tv_sec;
}

int gettimeofday(struct timeval *restrict moment, void *restrict zone)
{
    struct timespec now;
    (void)zone;
    clock_gettime(CLOCK_REALTIME, &now);
    *moment = (struct timeval){ now.tv_sec, now.tv_nsec / 1000 };
    return 0;
}

static int64_t nanoseconds_until(const struct timespec *end)
{
    struct timespec now;
    clock_gettime(CLOCK_REALTIME, &now);
    return ((int64_t)end->tv_sec - now.tv_sec) * SECOND + end->tv_nsec - now.tv_nsec;
}

/* A moment of the kernel's clock, which isn't ahead. */
static struct timespec after(int64_t nanoseconds)
{
    struct timespec now;
    int64_t sum;
    syscall(SYS_clock_gettime, CLOCK_REALTIME, &now);
    sum = now.tv_nsec + nanoseconds;
    return (struct timespec){ now.tv_sec + (time_t)(sum / SECOND), (long)(sum % SECOND) };
}

typedef int timed_wait(pthread_cond_t *, pthread_mutex_t *, const struct timespec *);

/* A wait until a time of the wall clock ends by the clock as it has changed, as the kernel does it. */
int pthread_cond_timedwait(pthread_cond_t *restrict condition, pthread_mutex_t *restrict mutex,
                           const struct timespec *restrict end)
{
    static timed_wait *of_library;
    int64_t left = nanoseconds_until(end);
    int answer = ETIMEDOUT;
    if (of_library == NULL)
        *(void **)&of_library = dlvsym(RTLD_NEXT, "pthread_cond_timedwait", "GLIBC_2.3.2");
    if (of_library == NULL)
        abort();
    while (answer == ETIMEDOUT && left > 0) {
        struct timespec slice = after(left < SLICE ? left : SLICE);
        answer = of_library(condition, mutex, &slice);
        left = nanoseconds_until(end);
    }
    return answer;
}

/* ---- The disk */

static void be_slow(void)
{
    int64_t slow = conditions()->slow;
    struct timespec pause = { (time_t)(slow / 1000), (long)(slow % 1000) * 1000000 };
    (void)nanosleep(&pause, NULL);
}

int fsync(int file)
{
    be_slow();
    return (int)syscall(SYS_fsync, file);
}

int fdatasync(int file)
{
    be_slow();
    return (int)syscall(SYS_fdatasync, file);
}
