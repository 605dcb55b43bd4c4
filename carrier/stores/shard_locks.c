#include "shard_locks.h"
#include "log.h"

#include <errno.h>
#include <fcntl.h>
#include <stdio.h>
#include <stdlib.h>
#include <string.h>
#include <unistd.h>

enum { RECEIVERS = 256 }; /* the most that share one file */

/* Byte N of the file is shard N; those from CARRIER_SHARDS on are the receivers'. */
struct file_locks { struct shard_locks base; int file; unsigned own; /* this receiver's byte; 0: none */ };

/* Asks something of a byte's lock: F_OFD_SETLK, or F_OFD_GETLK, whose answer is the lock's type. */
static int ask_lock(const struct file_locks *s, int what, short type, unsigned byte)
{
    struct flock lock = { .l_type = type, .l_whence = SEEK_SET, .l_start = byte, .l_len = 1 };
    if (fcntl(s->file, what, &lock) == 0)
        return what == F_OFD_GETLK ? lock.l_type : 1;
    if (errno == EAGAIN || errno == EACCES)
        return 0;
    log_system("shards_unlocked", "fcntl");
    return -1;
}

/* Takes the first byte of a receiver that is free. */
static int be_counted(struct file_locks *s)
{
    unsigned i;
    int taken = s->own != 0;
    for (i = 0; i < RECEIVERS && taken == 0; i++) {
        taken = ask_lock(s, F_OFD_SETLK, F_WRLCK, CARRIER_SHARDS + i);
        s->own = taken == 1 ? CARRIER_SHARDS + i : 0;
    }
    return taken == 1;
}

static int count(struct shard_locks *base)
{
    struct file_locks *s = (struct file_locks *)base;
    unsigned i;
    int others = 0;
    if (s->base.is_cut_off && s->own != 0 && ask_lock(s, F_OFD_SETLK, F_UNLCK, s->own) == 1)
        s->own = 0;
    if (!s->base.is_cut_off && !be_counted(s))
        return -1;
    for (i = 0; i < RECEIVERS; i++) {
        int type = ask_lock(s, F_OFD_GETLK, F_WRLCK, CARRIER_SHARDS + i);
        if (type < 0)
            return -1;
        others += type != F_UNLCK;
    }
    return others + (s->own != 0);
}

static int take_shard(struct shard_locks *base, unsigned shard)
{
    return ask_lock((struct file_locks *)base, F_OFD_SETLK, F_WRLCK, shard);
}

static void give_back(struct shard_locks *base, unsigned shard)
{
    if (ask_lock((struct file_locks *)base, F_OFD_SETLK, F_UNLCK, shard) != 1)
        log_system("shards_unlocked", "fcntl");
}

static void close_locks(struct shard_locks *base)
{
    struct file_locks *s = (struct file_locks *)base;
    if (s->file >= 0 && close(s->file) != 0)
        log_system("shards_unlocked", "close");
    free(s);
}

static int be_there(struct file_locks *s, const char *path)
{
    char name[512];
    if ((size_t)snprintf(name, sizeof name, "%s.shards", path) >= sizeof name)
        return 0;
    s->file = open(name, O_RDWR | O_CREAT | O_CLOEXEC, 0600);
    if (s->file < 0) {
        log_system("shards_unlocked", name);
        return 0;
    }
    return be_counted(s);
}

static struct shard_locks *file_locks_open(const char *path)
{
    static const struct shard_locks_calls calls = { count, take_shard, give_back, close_locks };
    struct file_locks *s = shard_locks_make(sizeof *s, &calls);
    if (s == NULL)
        return NULL;
    s->file = -1;
    return shard_locks_made(&s->base, be_there(s, path));
}

/* ---- */

void *shard_locks_make(size_t size, const struct shard_locks_calls *calls)
{
    struct shard_locks *it = calloc(1, size);
    if (it != NULL)
        it->calls = calls;
    return it;
}

struct shard_locks *shard_locks_made(struct shard_locks *locks, int is_open)
{
    if (is_open)
        return locks;
    locks->calls->close(locks);
    return NULL;
}

struct shard_locks *shard_locks_open(const char *where)
{
    if (strncmp(where, "sqlite:", 7) == 0)
        return file_locks_open(where + 7);
#ifdef WITH_POSTGRESQL
    if (strncmp(where, "postgresql:", 11) == 0)
        return postgresql_shard_locks_open(where);
#endif
    log_fact(LEVEL_ERROR, "shards_unshared",
             field_text("text", "receivers share shards over sqlite:FILE or postgresql://.."));
    return NULL;
}

int shard_locks_take(struct shard_locks *locks, unsigned shard)
{
    int answer = locks->calls->take(locks, shard);
    locks->has[shard] = answer == 1;
    return answer;
}

void shard_locks_give_back(struct shard_locks *locks, unsigned shard)
{
    locks->has[shard] = 0;
    locks->calls->give_back(locks, shard);
}
