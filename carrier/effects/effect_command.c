/* An effect that is a command, which runs as long as its shard is served. A text is a line for it:
 *     {"session":"tom","client":"","stream":"","number":7,"part":0,"text":"6869"}
 * with the text's bytes as hexadecimal digits, and it answers a line before it is given another one: `ok`,
 * `refuse REASON`, or `again`. If it ends, answers something else or nothing for a minute, it is started again
 * with the same text. So a text may come twice, under the same session, number and part. What it was given is over
 * before that: it and all that it started are ended by SIGTERM, and by SIGKILL after two seconds. */
#include "effects.h"
#include "clock.h"
#include "signals.h"
#include "log.h"

#include <errno.h>
#include <poll.h>
#include <pthread.h>
#include <signal.h>
#include <spawn.h>
#include <stdarg.h>
#include <stdio.h>
#include <stdlib.h>
#include <string.h>
#include <sys/socket.h>
#include <sys/wait.h>
#include <unistd.h>

enum { ANSWER = 512, MOST_ANSWER = 1 << 16 };   /* bytes of an answer that are kept, and that it may have */
enum { MOST_WAIT = 60000 };                     /* milliseconds for an answer */
enum { END_WAIT = 10, END_WAITS = 200 };        /* milliseconds, so often: two seconds */

struct child { pid_t pid; int socket; };

static const char *command;
static pthread_key_t of_thread;
extern char **environ;

/* Whether the command and all that it started have ended: they are one process group. */
static int has_ended(pid_t pid)
{
    (void)waitpid(pid, NULL, WNOHANG); /* however it ended */
    return kill(-pid, 0) != 0 && errno == ESRCH;
}

/* Waits for two seconds at most. */
static int await_end(pid_t pid)
{
    int waits;
    for (waits = 0; waits < END_WAITS && !has_ended(pid); waits++)
        pause_milliseconds(END_WAIT);
    return has_ended(pid);
}

static void end_child(void *given)
{
    struct child *child = given;
    if (child->pid > 0) {
        close(child->socket); /* its input ends */
        (void)kill(-child->pid, SIGTERM); /* it may have ended */
        if (!await_end(child->pid)) {
            (void)kill(-child->pid, SIGKILL); /* the same */
            if (!await_end(child->pid))
                log_fact(LEVEL_ERROR, "command_unended", field_number("process", (uint64_t)child->pid));
        }
    }
    free(child);
}

enum answer command_choose(const char *words)
{
    command = words;
    if (*words == 0) {
        log_fact(LEVEL_ERROR, "effect_refused", field_text("text", "there is no command"));
        return ANSWER_FAULT;
    }
    return pthread_key_create(&of_thread, end_child) == 0 ? ANSWER_DONE : ANSWER_FAULT;
}

/* ---- The command */

static int spawn(struct child *child, int socket)
{
    char *const words[] = { "sh", "-c", (char *)command, NULL };
    posix_spawn_file_actions_t actions;
    posix_spawnattr_t attributes;
    sigset_t none;
    int answer;
    (void)sigemptyset(&none); /* always 0 */
    if (posix_spawn_file_actions_init(&actions) != 0)
        return -1;
    if (posix_spawnattr_init(&attributes) != 0) {
        (void)posix_spawn_file_actions_destroy(&actions); /* always 0 */
        return -1;
    }
    answer = posix_spawn_file_actions_adddup2(&actions, socket, 0) || posix_spawn_file_actions_adddup2(&actions, socket, 1)
             || posix_spawnattr_setsigmask(&attributes, &none) || posix_spawnattr_setpgroup(&attributes, 0)
             || posix_spawnattr_setflags(&attributes, POSIX_SPAWN_SETSIGMASK | POSIX_SPAWN_SETPGROUP)
             || posix_spawn(&child->pid, "/bin/sh", &actions, &attributes, words, environ);
    (void)posix_spawnattr_destroy(&attributes); /* always 0 */
    (void)posix_spawn_file_actions_destroy(&actions); /* always 0 */
    return answer ? -1 : 0;
}

static int start(struct child *child)
{
    int pair[2];
    if (socketpair(AF_UNIX, SOCK_STREAM | SOCK_CLOEXEC, 0, pair) != 0)
        return -1;
    child->socket = pair[0];
    if (spawn(child, pair[1]) != 0) {
        child->pid = 0;
        close(pair[0]);
    }
    close(pair[1]);
    return child->pid > 0 ? 0 : -1;
}

/* This thread's command, which is started if it doesn't run; NULL if it can't be. */
static struct child *running(void)
{
    struct child *child = pthread_getspecific(of_thread);
    if (child == NULL) {
        child = calloc(1, sizeof *child);
        if (child == NULL || pthread_setspecific(of_thread, child) != 0) {
            free(child);
            return NULL;
        }
    }
    return child->pid > 0 || start(child) == 0 ? child : NULL;
}

static enum answer fail(struct child *child, const char *why)
{
    log_fact(LEVEL_ERROR, "command_failed", field_text("text", why));
    (void)pthread_setspecific(of_thread, NULL); /* this thread has set it before, so its room is there */
    end_child(child);
    return ANSWER_LATER;
}

/* ---- A line for it */

static void print_to(FILE *to, const char *format, ...)
    __attribute__((format(printf, 2, 3)));
static void print_to(FILE *to, const char *format, ...)
{
    va_list values;
    va_start(values, format);
    (void)vfprintf(to, format, values); /* line_of asks the stream at its end */
    va_end(values);
}

static void add_name(FILE *to, const char *name, const char *text)
{
    print_to(to, "\"%s\":\"", name);
    for (; *text != 0; text++) {
        if (*text == '"' || *text == '\\')
            print_to(to, "\\%c", *text);
        else if ((unsigned char)*text < ' ')
            print_to(to, "\\u%04x", (unsigned)(unsigned char)*text);
        else
            print_to(to, "%c", *text);
    }
    print_to(to, "\",");
}

/* The line, which the caller frees; NULL if there is no memory. */
static char *line_of(const struct arrived *it, size_t *len)
{
    char *line = NULL;
    FILE *to = open_memstream(&line, len);
    size_t i;
    int is_whole;
    if (to == NULL)
        return NULL;
    print_to(to, "{");
    add_name(to, "session", it->session);
    add_name(to, "client", it->client);
    add_name(to, "stream", it->stream);
    print_to(to, "\"number\":%llu,\"part\":%u,\"text\":\"", (unsigned long long)it->number, it->part);
    for (i = 0; i < it->len; i++)
        print_to(to, "%02x", (unsigned)it->text[i]);
    print_to(to, "\"}\n");
    is_whole = ferror(to) == 0;
    if (fclose(to) == 0 && is_whole)
        return line;
    free(line);
    return NULL;
}

/* ---- Passing lines */

/* Waits until the socket is ready: 0, or -1 if it isn't within a minute, or the receiver is to end. */
static int await(int socket, short what)
{
    struct pollfd all[] = { { socket, what, 0 }, { ending_descriptor(), POLLIN, 0 } };
    uint64_t end = milliseconds() + MOST_WAIT, now;
    while (!is_ending() && (now = milliseconds()) < end)
        if (poll(all, 2, (int)(end - now)) > 0 && all[0].revents != 0)
            return 0;
    return -1;
}

static enum answer send_all(int socket, const char *line, size_t len)
{
    size_t sent = 0;
    while (sent < len) {
        ssize_t more = await(socket, POLLOUT) == 0
                           ? send(socket, line + sent, len - sent, MSG_NOSIGNAL | MSG_DONTWAIT) : -1;
        if (more < 0 && errno != EAGAIN && errno != EINTR)
            return ANSWER_FAULT;
        if (more < 0 && is_ending())
            return ANSWER_FAULT;
        sent += more > 0 ? (size_t)more : 0;
    }
    return ANSWER_DONE;
}

/* Reads the answer without its line feed, which stays where it is cut since it is longer than its room: 0, or -1. What
 * comes after the line feed is no answer to this text. */
static enum answer read_answer(int socket, char answer[ANSWER])
{
    char part[ANSWER];
    size_t len = 0, all;
    for (all = 0; all < MOST_ANSWER;) {
        ssize_t more = await(socket, POLLIN) == 0 ? read(socket, part, sizeof part) : -1;
        const char *end = more > 0 ? memchr(part, '\n', (size_t)more) : NULL;
        size_t kept = end != NULL ? (size_t)(end - part) : more > 0 ? (size_t)more : 0;
        if (more <= 0)
            return ANSWER_FAULT;
        kept = kept < ANSWER - 1 - len ? kept : ANSWER - 1 - len;
        memcpy(answer + len, part, kept);
        len += kept;
        answer[len] = 0;
        if (end != NULL)
            return end == part + more - 1 ? ANSWER_DONE : ANSWER_FAULT;
        all += (size_t)more;
    }
    return ANSWER_FAULT;
}

enum answer command_take(struct store *store, const struct arrived *it, char *reason)
{
    struct child *child = running();
    char answer[ANSWER], *line;
    size_t len = 0;
    int is_passed;
    (void)store;
    if (child == NULL)
        return ANSWER_LATER;
    line = line_of(it, &len);
    is_passed = line != NULL && send_all(child->socket, line, len) == ANSWER_DONE;
    if (line != NULL)
        explicit_bzero(line, len);
    free(line);
    if (!is_passed || read_answer(child->socket, answer) != ANSWER_DONE)
        return fail(child, "it has ended, or answers nothing: it is started again");
    if (strcmp(answer, "ok") == 0)
        return ANSWER_DONE;
    if (strncmp(answer, "refuse", 6) == 0 && (answer[6] == ' ' || answer[6] == 0)) {
        const char *told = answer[6] == ' ' ? answer + 7 : "";
        (void)snprintf(reason, EFFECT_REASON, "%.*s", EFFECT_REASON - 1, told); /* a long one is cut */
        return ANSWER_REFUSED;
    }
    return strcmp(answer, "again") == 0 ? ANSWER_LATER : fail(child, "it answers neither ok, refuse nor again");
}
