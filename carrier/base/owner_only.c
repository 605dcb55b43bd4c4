#include "owner_only.h"
#include "log.h"

#include <fcntl.h>
#include <stdlib.h>
#include <string.h>
#include <unistd.h>

enum { OTHERS = 077, MORE = 2 /* a newline and a zero */ };

static int is_private(const struct stat *is, const char *path)
{
    if ((is->st_mode & OTHERS) == 0)
        return 1;
    log_fact(LEVEL_ERROR, "file_not_private", field_text("file", path),
             field_text("text", "it has secrets or texts, and others may use it: chmod 600"));
    return 0;
}

/* Reads so many bytes at most; -1 after a fault. */
static ssize_t read_all(int file, char *text, size_t room)
{
    size_t had = 0;
    ssize_t more = 1;
    while (more > 0 && had < room) {
        more = read(file, text + had, room - had);
        had += more > 0 ? (size_t)more : 0;
    }
    return more < 0 ? -1 : (ssize_t)had;
}

/* The text of an open file, as long as it was. */
static char *read_text(int file, const char *path, size_t *size, const struct stat *is)
{
    size_t room = (size_t)is->st_size;
    char *text = malloc(room + MORE);
    ssize_t had = text != NULL ? read_all(file, text, room) : -1;
    if (had < 0) {
        log_system("file_unread", path);
        if (text != NULL)
            explicit_bzero(text, room + MORE);
        free(text);
        return NULL;
    }
    *size = (size_t)had;
    if (*size > 0 && text[*size - 1] != '\n')
        text[(*size)++] = '\n';
    text[*size] = 0;
    return text;
}

char *owner_only_read(const char *path, size_t *size, struct stat *is)
{
    int file = open(path, O_RDONLY | O_CLOEXEC);
    char *text = NULL;
    if (file < 0 || fstat(file, is) != 0)
        log_system("file_unread", path);
    else if (is_private(is, path))
        text = read_text(file, path, size, is);
    if (file < 0 || close(file) == 0 || text == NULL)
        return text;
    log_system("file_unread", path);
    owner_only_forget(text, *size);
    return NULL;
}

int owner_only_is(const char *path)
{
    struct stat is;
    return stat(path, &is) != 0 || is_private(&is, path);
}

void owner_only_forget(char *text, size_t size)
{
    if (text != NULL)
        explicit_bzero(text, size);
    free(text);
}
