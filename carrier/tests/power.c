/* SQLite's own files, of which each write is kept until the next sync. */
#include "power.h"
#include "check.h"

#include <fcntl.h>
#include <sqlite3.h>
#include <string.h>
#include <unistd.h>

enum { FILES = 32, PATH = 512, SECTOR = 512 };

/* A write, or where `bytes` is NULL the file's new size. */
struct change { sqlite3_int64 at; int len; uint8_t *bytes; struct change *next; };

/* A file as it is on the disk, and what was changed since. */
struct image {
    char path[PATH];
    int is_there;
    uint8_t *bytes;
    sqlite3_int64 size;
    struct change *first, **last;
};

/* What stands after the bytes of SQLite's own file: its calls, some of which are in the place of the real ones. */
struct added { sqlite3_io_methods methods; const sqlite3_io_methods *real; struct image *image; };

static struct image images[FILES];
static size_t image_count;
static uint64_t steps, fails_at, drawn;
static sqlite3_vfs *real, power;

/* ---- the disk */

static struct image *image_of(const char *path)
{
    size_t i;
    for (i = 0; i < image_count; i++)
        if (strcmp(images[i].path, path) == 0)
            return &images[i];
    check(image_count < FILES && strlen(path) < PATH, "the files are few");
    strcpy(images[image_count].path, path);
    images[image_count].last = &images[image_count].first;
    return &images[image_count++];
}

static void resize(struct image *image, sqlite3_int64 size)
{
    if (size > image->size) {
        image->bytes = realloc(image->bytes, (size_t)size);
        check(image->bytes != NULL, "there is memory");
        memset(image->bytes + image->size, 0, (size_t)(size - image->size));
    }
    image->size = size;
}

static void put(struct image *image, sqlite3_int64 at, const uint8_t *bytes, int len)
{
    if (at + len > image->size)
        resize(image, at + len);
    memcpy(image->bytes + at, bytes, (size_t)len);
}

/* What the file has when it is opened first is on the disk. */
static void load(struct image *image)
{
    uint8_t bytes[4096];
    ssize_t len;
    int file = open(image->path, O_RDONLY);
    if (file < 0)
        return;
    image->is_there = 1;
    while ((len = read(file, bytes, sizeof bytes)) > 0)
        put(image, image->size, bytes, (int)len);
    close(file);
}

static void store(const struct image *image)
{
    int file;
    if (!image->is_there) {
        unlink(image->path);
        return;
    }
    file = open(image->path, O_WRONLY | O_CREAT | O_TRUNC, 0600);
    check(file >= 0 && write(file, image->bytes, (size_t)image->size) == image->size && close(file) == 0,
          "the disk is as it was");
}

/* ---- what was changed since the last sync */

static void note(struct image *image, sqlite3_int64 at, const void *bytes, int len)
{
    struct change *it = calloc(1, sizeof *it);
    check(it != NULL, "there is memory");
    it->at = at;
    it->len = len;
    if (bytes != NULL) {
        it->bytes = malloc((size_t)len);
        check(it->bytes != NULL, "there is memory");
        memcpy(it->bytes, bytes, (size_t)len);
    }
    *image->last = it;
    image->last = &it->next;
}

static int is_drawn(void)
{
    drawn = drawn * UINT64_C(6364136223846793005) + UINT64_C(1442695040888963407);
    return (int)(drawn >> 63);
}

/* Of a write those sectors that are drawn; all of them where the disk is synced. */
static void apply(struct image *image, const struct change *it, int is_whole)
{
    int at, len;
    if (it->bytes == NULL && (is_whole || is_drawn()))
        resize(image, it->at);
    for (at = 0; it->bytes != NULL && at < it->len; at += len) {
        len = SECTOR - (int)((it->at + at) % SECTOR);
        len = len < it->len - at ? len : it->len - at;
        if (is_whole || is_drawn())
            put(image, it->at + at, it->bytes + at, len);
    }
}

static void apply_all(struct image *image, int is_whole)
{
    struct change *it;
    while ((it = image->first) != NULL) {
        apply(image, it, is_whole);
        image->first = it->next;
        free(it->bytes);
        free(it);
    }
    image->last = &image->first;
}

static void fail(void)
{
    size_t i;
    for (i = 0; i < image_count; i++) {
        if (drawn != 0 && images[i].first != NULL) {
            images[i].is_there |= is_drawn(); /* a new file, whose folder isn't synced */
            apply_all(&images[i], 0);
        }
        store(&images[i]);
    }
    _exit(POWER_FAILED);
}

static void step(void)
{
    if (++steps == fails_at)
        fail();
}

/* ---- a file of SQLite's */

static struct added *added_to(sqlite3_file *it)
{
    return (void *)((char *)it + real->szOsFile);
}

static int write_it(sqlite3_file *it, const void *from, int len, sqlite3_int64 at)
{
    note(added_to(it)->image, at, from, len);
    return added_to(it)->real->xWrite(it, from, len, at);
}

static int truncate_it(sqlite3_file *it, sqlite3_int64 size)
{
    note(added_to(it)->image, size, NULL, 0);
    return added_to(it)->real->xTruncate(it, size);
}

/* The power may fail before it. */
static int sync_it(sqlite3_file *it, int flags)
{
    (void)flags;
    step();
    apply_all(added_to(it)->image, 1);
    added_to(it)->image->is_there = 1;
    return SQLITE_OK;
}

/* SQLite writes only by write_it: a size that it suggests changes nothing. */
static int control(sqlite3_file *it, int code, void *given)
{
    if (code == SQLITE_FCNTL_SIZE_HINT || code == SQLITE_FCNTL_CHUNK_SIZE || code == SQLITE_FCNTL_MMAP_SIZE)
        return SQLITE_OK;
    return added_to(it)->real->xFileControl(it, code, given);
}

static int sector_size(sqlite3_file *it)
{
    (void)it;
    return SECTOR;
}

/* Nothing is promised: a write may be torn, and any two may be exchanged. */
static int characteristics(sqlite3_file *it)
{
    (void)it;
    return 0;
}

/* ---- SQLite's files */

static int open_it(sqlite3_vfs *vfs, const char *path, sqlite3_file *it, int flags, int *given)
{
    struct added *added = added_to(it);
    size_t before = image_count;
    int answer;
    (void)vfs;
    check(path != NULL, "each file has a name");
    added->image = image_of(path);
    if (image_count > before)
        load(added->image);
    answer = real->xOpen(real, path, it, flags, given);
    if (it->pMethods == NULL)
        return answer;
    added->real = it->pMethods;
    added->methods = *it->pMethods;
    added->methods.iVersion = 2; /* no mapping */
    added->methods.xWrite = write_it;
    added->methods.xTruncate = truncate_it;
    added->methods.xSync = sync_it;
    added->methods.xFileControl = control;
    added->methods.xSectorSize = sector_size;
    added->methods.xDeviceCharacteristics = characteristics;
    it->pMethods = &added->methods;
    return answer;
}

/* What isn't synced with its folder may be there again. */
static int delete_it(sqlite3_vfs *vfs, const char *path, int syncs)
{
    struct image *image = image_of(path);
    (void)vfs;
    step();
    if (syncs) {
        image->is_there = 0;
        resize(image, 0);
        apply_all(image, 1);
        resize(image, 0);
    }
    return real->xDelete(real, path, syncs);
}

static void forget(void)
{
    size_t i;
    for (i = 0; i < image_count; i++) {
        apply_all(&images[i], 1);
        free(images[i].bytes);
    }
    memset(images, 0, sizeof images);
    image_count = 0;
}

void power_begin(uint64_t step, uint64_t seed)
{
    forget();
    real = real != NULL ? real : sqlite3_vfs_find(NULL);
    check(real != NULL, "SQLite has files");
    power = *real;
    power.zName = "power";
    power.pNext = NULL;
    power.szOsFile = real->szOsFile + (int)sizeof(struct added);
    power.xOpen = open_it;
    power.xDelete = delete_it;
    steps = 0;
    fails_at = step;
    drawn = seed;
    check(sqlite3_vfs_register(&power, 1) == SQLITE_OK, "they are taken");
}
