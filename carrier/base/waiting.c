#include "waiting.h"
#include "clock.h"
#include "signals.h"
#include "log.h"

#include <poll.h>
#include <stdlib.h>
#include <string.h>
#include <sys/eventfd.h>
#include <sys/inotify.h>
#include <sys/stat.h>
#include <unistd.h>

/* Milliseconds: files are looked at where a wait ends so long after the last time, and no wait is
 * longer, so that a thread that wakes each second by itself isn't woken once more; and between two
 * looks where a file can't be watched. */
enum { LOOK = 900, LONGEST = 1500, BLIND = 20 };

/* ---- Files */

/* What is committed is written to the file beside the database, which SQLite looks for where links
 * lead to. NULL if there is no memory, or no database. */
static char *log_of(const char *path)
{
    static const char end[] = "-wal";
    char *real = realpath(path, NULL);
    char *name = real != NULL ? realloc(real, strlen(real) + sizeof end) : NULL;
    if (name == NULL)
        free(real);
    return name != NULL ? strcat(name, end) : NULL;
}

/* Where it is watched already, that goes on. Another file may be there than before. */
static int watch(const struct waiting *it, const struct watched *file)
{
    const uint32_t what = IN_MODIFY | IN_DELETE_SELF;
    return file->path != NULL && inotify_add_watch(it->changes, file->path, what) >= 0 ? 0 : -1;
}

/* Whether a file isn't as it was when it was looked at last. */
static int has_changed(struct watched *file)
{
    struct stat is = { .st_size = 0 };
    uint64_t now[3];
    int answer;
    if (file->path != NULL)
        (void)stat(file->path, &is); /* one that isn't there has zeros */
    now[0] = (uint64_t)is.st_ino;
    now[1] = (uint64_t)is.st_size;
    now[2] = (uint64_t)is.st_mtim.tv_sec * 1000000000 + (uint64_t)is.st_mtim.tv_nsec;
    answer = memcmp(now, file->seen, sizeof now) != 0;
    memcpy(file->seen, now, sizeof now);
    return answer;
}

/* Whether one has changed, and inotify has reported nothing since they were looked at last. */
static int look_at_files(struct waiting *it)
{
    int answer = 0, was_reported = it->came >= it->looked;
    unsigned i;
    it->looked = milliseconds();
    it->is_blind = it->changes < 0;
    for (i = 0; i < it->count; i++) {
        it->is_blind |= watch(it, &it->files[i]) != 0;
        answer |= has_changed(&it->files[i]);
    }
    return answer && !was_reported;
}

/* Forgets what was reported so far: 1 if anything was. */
static int take_changes(const struct waiting *it)
{
    char events[4096];
    int answer = 0;
    while (it->changes >= 0 && read(it->changes, events, sizeof events) > 0)
        answer = 1;
    return answer;
}

/* ---- */

void waiting_begin(struct waiting *it, int passes_on)
{
    *it = (struct waiting){ .woken = eventfd(0, EFD_CLOEXEC | EFD_NONBLOCK), .changes = -1,
                            .heard = -1, .passes_on = passes_on };
    it->is_blind = it->woken < 0;
    if (it->woken < 0)
        log_system("descriptor_unopened", "eventfd"); /* it looks all the time */
}

void waiting_watch(struct waiting *it, const char *path)
{
    if (it->changes < 0)
        it->changes = inotify_init1(IN_CLOEXEC | IN_NONBLOCK);
    it->files[it->count++] = (struct watched){ .path = log_of(path) };
    (void)look_at_files(it); /* whoever waits looks for all that came before */
    if (it->is_blind)
        log_fact(LEVEL_WARNING, "file_unwatched", field_text("file", path),
                 field_number("milliseconds", BLIND),
                 field_text("text", "it is looked at so often: may this user have more instances of"
                            " inotify (fs.inotify.max_user_instances)?"));
}

void waiting_hear(struct waiting *it, int descriptor)
{
    it->heard = descriptor;
}

void waiting_wake(struct waiting *it)
{
    const uint64_t one = 1;
    if (write(it->woken, &one, sizeof one) < 0)
        return; /* it was woken so often before, or looks all the time */
}

/* So long it waits at most, in milliseconds, if nothing comes: what was written is synced for longer
 * where a disk is slow. */
static uint64_t patience(const struct waiting *it, uint64_t now)
{
    if (it->is_blind)
        return BLIND;
    return it->passes_on ? UINT64_MAX : 1 + (now - it->came) / 2;
}

/* A wait that isn't cut short. A transaction writes several times: they are passed on together. */
static int is_brief(const struct waiting *it, uint64_t now, uint64_t moment)
{
    return moment - now <= BRIEF || (it->passes_on && now < it->came + BRIEF);
}

static uint64_t end_of(const struct waiting *it, uint64_t now, uint64_t moment)
{
    uint64_t most = patience(it, now), end = moment;
    if (is_brief(it, now, moment))
        return moment - now <= BRIEF ? moment : it->came + BRIEF;
    if (most < UINT64_MAX && now + most < end)
        end = now + most;
    if (it->count > 0 && it->looked + LONGEST < end)
        end = it->looked + LONGEST;
    return end;
}

static void poll_for(struct pollfd *all, nfds_t count, uint64_t milliseconds)
{
    struct timespec wait = { (time_t)(milliseconds / 1000), (long)(milliseconds % 1000) * 1000000 };
    (void)ppoll(all, count, &wait, NULL); /* a signal may end it earlier: who waits looks again */
}

void waiting_for(int descriptor, uint64_t moment)
{
    struct pollfd it = { descriptor, POLLIN, 0 };
    uint64_t now = milliseconds();
    if (descriptor >= 0 && now < moment)
        poll_for(&it, 1, moment - now);
}

/* Sleeps, and unless it is deaf no longer than until something comes: 1 if it was woken by another
 * thread. */
static int sleep_until(struct waiting *it, int is_deaf, uint64_t now, uint64_t end)
{
    struct pollfd all[] = { { is_deaf ? -1 : it->woken, POLLIN, 0 },
                            { is_deaf ? -1 : it->changes, POLLIN, 0 },
                            { is_deaf ? -1 : it->heard, POLLIN, 0 },
                            { it->is_told ? -1 : ending_descriptor(), POLLIN, 0 } };
    uint64_t count;
    poll_for(all, sizeof all / sizeof *all, end > now ? end - now : 0);
    it->is_told |= all[3].revents != 0;
    return read(it->woken, &count, sizeof count) > 0;
}

int waiting_until(struct waiting *it, uint64_t moment)
{
    uint64_t now = milliseconds();
    int was_woken, has_come;
    if (moment <= now)
        return 0;
    was_woken = sleep_until(it, is_brief(it, now, moment), now, end_of(it, now, moment));
    has_come = take_changes(it);
    now = milliseconds();
    if (was_woken || has_come)
        it->came = now;
    if (it->count > 0 && now - it->looked >= LOOK && look_at_files(it)) {
        it->came = now;
        has_come = 1;
    }
    return has_come || it->is_blind;
}

void waiting_end(struct waiting *it)
{
    while (it->count > 0)
        free(it->files[--it->count].path);
    if (it->woken >= 0)
        (void)close(it->woken); /* nothing was written there to be kept */
    if (it->changes >= 0)
        (void)close(it->changes); /* the same */
}
