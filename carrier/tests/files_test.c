/* Files of keys: who may use them, that no two sessions have a key or a name in common, and that what was read
 * isn't left in freed blocks:  files_test FOLDER */
#include "check.h"
#include "left.h"
#include "owner_only.h"
#include "receipts.h"
#include "sessions.h"

#include <string.h>
#include <unistd.h>

static char path[4096];

static void write_file(const char *text, mode_t mode)
{
    FILE *file = fopen(path, "w");
    check(file != NULL && fputs(text, file) >= 0 && fclose(file) == 0 && chmod(path, mode) == 0,
          "a file is written");
}

/* Each bit that lets others read, write or run it is a fault; none of the owner's is. */
static void test_modes(void)
{
    mode_t mode;
    check_is_seen("secret");
    for (mode = 0; mode <= 0777; mode++) {
        struct stat is;
        size_t size = 0;
        char *text;
        write_file("secret\n", 0600);
        check(chmod(path, mode) == 0, "its mode is set");
        text = owner_only_read(path, &size, &is);
        check((mode & 077) == 0 || text == NULL, "a file that others may use is refused");
        check((mode & 0477) != 0400 || (text != NULL && size == 7 && strcmp(text, "secret\n") == 0),
              "a file of its owner alone is read");
        look_for("secret");
        owner_only_forget(text, size);
        check(found_left() == 0, "what was read isn't left in memory");
    }
}

/* Writes two sessions with these keys, the second of this name, and says whether the file is taken. A key of 0
 * is none. */
static int is_taken_as(const char *name, int key, int back, int other_key, int other_back)
{
    char text[1000];
    struct sessions *read;
    int at = snprintf(text, sizeof text, "ann 0 17 safe %032d 1 10.0.0.1 10.0.0.255", key);
    if (back != 0)
        at += snprintf(text + at, sizeof text - (size_t)at, " %032d", back);
    at += snprintf(text + at, sizeof text - (size_t)at, "\n%s 0 17 safe %032d 1 10.0.0.2 10.0.0.255", name,
                   other_key);
    if (other_back != 0)
        at += snprintf(text + at, sizeof text - (size_t)at, " %032d", other_back);
    snprintf(text + at, sizeof text - (size_t)at, "\n");
    write_file(text, 0600);
    read = sessions_read(path);
    sessions_forget(read);
    return read != NULL;
}

static int is_taken(int key, int back, int other_key, int other_back)
{
    return is_taken_as("tom", key, back, other_key, other_back);
}

/* A name is compared as a whole. */
static void test_names(void)
{
    check(!is_taken_as("ann", 1, 0, 2, 0), "two sessions of one name are refused");
    check(is_taken_as("anna", 1, 0, 2, 0) && is_taken_as("an", 1, 0, 2, 0),
          "a name that begins another is its own");
}

/* Keys and keys of the way back, of one session and of the other, in each order. */
static void test_keys(void)
{
    int which;
    check(is_taken(1, 2, 3, 4) && is_taken(1, 0, 3, 0) && is_taken(1, 2, 3, 0) && is_taken(1, 0, 3, 4),
          "sessions without a common key are taken");
    for (which = 1; which <= 2; which++) {
        check(!is_taken(which, 3 - which, 1, 3) && !is_taken(which, 3 - which, 3, 1),
              "a key that both have is refused, in each place");
        check(!is_taken(1, 3, which, 3 - which) && !is_taken(3, 1, which, 3 - which),
              "and in each order");
    }
    check(!is_taken(1, 0, 1, 0) && !is_taken(1, 0, 3, 1) && !is_taken(3, 1, 1, 0), "with one way back, or none");
    check(!is_taken(1, 1, 3, 4) && !is_taken(1, 2, 3, 3), "a session's two keys differ");
}

/* A session of the file without a key of the way back, whose key has only this byte. */
static struct session without_back(int32_t etype, uint8_t byte)
{
    struct session it = { .etype = etype, .key_len = etype == 17 ? 16 : 32 };
    memset(it.key, byte, it.key_len);
    check(receipt_key(&it) == 0 && it.has_back, "a key of the way back follows from a session's key");
    return it;
}

/* It is the same at both ends, no other session's, and none that it is made of; one that a line has stays. */
static void test_key_of_the_way_back(void)
{
    static const uint8_t zeros[32];
    int32_t etype;
    for (etype = 17; etype <= 18; etype++) {
        struct session one = without_back(etype, 1), same = without_back(etype, 1), other = without_back(etype, 2);
        struct session has = { .etype = etype, .key_len = one.key_len, .has_back = 1, .back = { 7 } };
        check(memcmp(one.back, same.back, one.key_len) == 0, "it is the same at both ends");
        check(memcmp(one.back, other.back, one.key_len) != 0, "another session has another one");
        check(memcmp(one.back, one.key, one.key_len) != 0, "it isn't the session's key");
        check(memcmp(one.back, zeros, one.key_len) != 0 && memcmp(one.back + one.key_len - 4, zeros, 4) != 0
              && memcmp(one.back, one.back + 12, 4) != 0, "all of it is filled, of different parts");
        check(receipt_key(&has) == 0 && has.back[0] == 7 && has.back[1] == 0, "one that a line has stays");
    }
}

int main(int count, char **words)
{
    check_only(2, count, words);
    check(count >= 2, "files_test FOLDER [TEST..]");
    snprintf(path, sizeof path, "%s/file", words[1]);
    RUN(test_modes());
    RUN(test_key_of_the_way_back());
    RUN(test_names());
    RUN(test_keys());
    return check_status("files_test");
}
