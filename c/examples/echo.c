/* An echo server for many clients in one thread, by poll, and its client:
 *
 *     echo server COUNT               prints its port, and ends after so many clients
 *     echo client PORT NUMBER LINES   NUMBER (below 128) names the client's key
 *
 * A client has a key from the exchange before, and connects once. It first sends its number, a byte.
 * Messages follow each way, each a frame after four bytes of its length: so texts stand in a batch
 * too, and the calls for batches write and read them. One without user data ends a session. */
#define _GNU_SOURCE
#include <krbrelay.h>

#include <errno.h>
#include <netinet/in.h>
#include <poll.h>
#include <stdio.h>
#include <stdlib.h>
#include <string.h>
#include <sys/socket.h>
#include <unistd.h>

enum { ROOM = 4 + KRBRELAY_FRAME_SIZE(4096), MOST = 64 };
enum end { CLIENT, SERVER };

/* The addresses of both ends (RFC 4120 section 7.1): they say which way a message goes. */
static const struct krbrelay_address ends[] = {
    { KRBRELAY_DIRECTIONAL, 4, { 0, 0, 0, CLIENT } }, { KRBRELAY_DIRECTIONAL, 4, { 0, 0, 0, SERVER } }
};

struct link {
    int fd, number, is_open, is_done, texts;
    struct krbrelay_peer peer;
    uint8_t in[ROOM], out[ROOM];
    size_t in_len, out_len, out_at;
};

static int fail(const struct link *l, const char *what, enum krbrelay_answer answer)
{
    fprintf(stderr, "client %d: %s: %s\n", l->number, what, krbrelay_strerror(answer));
    return -1;
}

/* One key serves both directions: an end's own message, sent back to it, has the wrong address. */
static int open_link(struct link *l, enum end end)
{
    struct krbrelay_session session = { .mode = KRBRELAY_PRIV, .sender = ends[end] };
    struct krbrelay_demand demand = {
        .how_sender = KRBRELAY_REQUIRED, .sender = ends[end == CLIENT ? SERVER : CLIENT],
        .how_time = KRBRELAY_REQUIRED, .skew = 300, .how_number = KRBRELAY_REQUIRED
    };
    uint8_t key[32];
    enum krbrelay_answer answer;
    memset(key, l->number, sizeof key);
    answer = krbrelay_peer_new(&l->peer, 18, key, sizeof key, &session, &demand);
    explicit_bzero(key, sizeof key);
    krbrelay_clear_stack();
    l->is_open = answer == KRBRELAY_OK;
    return l->is_open ? 0 : fail(l, "no session", answer);
}

static void close_link(struct link *l)
{
    printf("client %d: %d texts%s\n", l->number, l->texts, l->is_done ? ", closed" : "");
    krbrelay_peer_free(&l->peer);
    krbrelay_clear_stack();
    close(l->fd);
}

/* Seals a message into what is to be sent. */
static int give(struct link *l, const uint8_t *bytes, size_t len)
{
    uint8_t frame[ROOM];
    size_t size = 0;
    enum krbrelay_answer answer = krbrelay_peer_seal_now(&l->peer, bytes, len, frame, sizeof frame,
                                                         &size);
    if (answer == KRBRELAY_OK)
        answer = krbrelay_batch_add(l->out, sizeof l->out, &l->out_len, frame, size);
    return answer == KRBRELAY_OK ? 0 : fail(l, "not sealed", answer);
}

/* Takes the next frame that has come whole: 1, 0 if there is none, -1 if it is refused. */
static int take(struct link *l, uint8_t *bytes, size_t *size)
{
    struct krbrelay_carried carried;
    struct krbrelay_moment now;
    const uint8_t *frame;
    size_t at = 0, len;
    enum krbrelay_answer answer;
    if (krbrelay_batch_next(l->in, l->in_len, &at, &frame, &len) != KRBRELAY_OK)
        return l->in_len < sizeof l->in ? 0 : fail(l, "not read", KRBRELAY_FIELD_TOOLONG);
    answer = krbrelay_now(&now);
    if (answer == KRBRELAY_OK)
        answer = krbrelay_peer_open(&l->peer, frame, len, &now, bytes, ROOM, size, &carried);
    if (answer != KRBRELAY_OK)
        return fail(l, "refused", answer);
    memmove(l->in, l->in + at, l->in_len -= at);
    l->texts += *size > 0;
    l->is_done = *size == 0;
    return 1;
}

/* Reads or writes what can be now: -1 at the end of the connection. */
static int move_bytes(struct link *l, int writes)
{
    ssize_t moved = writes ? send(l->fd, l->out + l->out_at, l->out_len - l->out_at, MSG_NOSIGNAL)
                           : recv(l->fd, l->in + l->in_len, sizeof l->in - l->in_len, 0);
    if (moved <= 0)
        return moved < 0 && (errno == EAGAIN || errno == EINTR) ? 0 : -1;
    if (!writes)
        l->in_len += (size_t)moved;
    else if ((l->out_at += (size_t)moved) == l->out_len)
        l->out_at = l->out_len = 0;
    return 0;
}

/* Answers the next message, if no answer waits to be sent: -1 at the session's end. */
static int serve(struct link *l)
{
    uint8_t bytes[ROOM];
    size_t size = 0;
    int taken = 0;
    if (!l->is_open && l->in_len > 0) {
        static int is_used[128];        /* A key seals each number once: no session comes twice. */
        l->number = l->in[0];
        memmove(l->in, l->in + 1, --l->in_len);
        taken = l->number < 128 && is_used[l->number]++ == 0 ? open_link(l, SERVER) : -1;
    }
    if (taken == 0 && l->is_open && l->out_len == 0)
        taken = l->is_done ? -1 : take(l, bytes, &size);
    return taken > 0 ? give(l, bytes, size) : taken;
}

static int server(int listener, int wanted)
{
    static struct link links[MOST];
    struct pollfd polled[MOST + 1] = { { listener, 0, 0 } };
    int count = 0, i;
    while (wanted > 0) {
        polled[MOST] = (struct pollfd){ listener, count < MOST ? POLLIN : 0, 0 };
        for (i = 0; i < MOST; i++)
            polled[i] = (struct pollfd){ i < count ? links[i].fd : -1,
                                         links[i].out_len > 0 ? POLLOUT : POLLIN, 0 };
        if (poll(polled, MOST + 1, -1) < 0)
            continue;
        for (i = count; i-- > 0;)
            if (polled[i].revents != 0 && (move_bytes(&links[i], polled[i].events == POLLOUT) != 0 ||
                                           serve(&links[i]) != 0)) {
                close_link(&links[i]);
                links[i] = links[--count];      /* A handle may be moved. */
                wanted--;
            }
        if (polled[MOST].revents != 0) {
            memset(&links[count], 0, sizeof links[count]);
            links[count].fd = accept4(listener, NULL, NULL, SOCK_CLOEXEC | SOCK_NONBLOCK);
            count += links[count].fd >= 0;
        }
    }
    return 0;
}

/* Sends each line, and then the end, and waits for it to come back. */
static int client(int fd, int number, int lines)
{
    static struct link l;
    uint8_t bytes[ROOM];
    char text[32];
    size_t size = 0;
    int i, taken = 1;
    l.fd = fd;
    l.number = number;
    if (send(fd, &(uint8_t){ (uint8_t)number }, 1, MSG_NOSIGNAL) != 1 || open_link(&l, CLIENT) != 0)
        return 1;
    for (i = 0; i <= lines && taken == 1; i++) {
        size_t len = i < lines ? (size_t)snprintf(text, sizeof text, "line %d", i) : 0;
        taken = give(&l, (uint8_t *)text, len);
        while (taken == 0 && l.out_len > 0)
            taken = move_bytes(&l, 1);
        while (taken == 0 && (taken = take(&l, bytes, &size)) == 0)
            taken = move_bytes(&l, 0);
        if (taken == 1 && (size != len || memcmp(bytes, text, len) != 0))
            taken = -1;
    }
    close_link(&l);
    return taken != 1;
}

int main(int argc, char **argv)
{
    struct sockaddr_in at = { .sin_family = AF_INET, .sin_addr.s_addr = htonl(INADDR_LOOPBACK) };
    socklen_t len = sizeof at;
    int fd = socket(AF_INET, SOCK_STREAM | SOCK_CLOEXEC, 0);
    if (argc != 3 && argc != 5) {
        fputs("usage: echo server COUNT, or echo client PORT NUMBER LINES\n", stderr);
        return 2;
    }
    at.sin_port = htons(argc == 5 ? (uint16_t)atoi(argv[2]) : 0);
    if (argc == 5 && connect(fd, (struct sockaddr *)&at, sizeof at) == 0)
        return client(fd, atoi(argv[3]), atoi(argv[4]));
    if (argc == 3 && bind(fd, (struct sockaddr *)&at, len) == 0 && listen(fd, MOST) == 0 &&
        getsockname(fd, (struct sockaddr *)&at, &len) == 0) {
        printf("port %d\n", ntohs(at.sin_port));
        fflush(stdout);
        return server(fd, atoi(argv[2]));
    }
    perror("echo");
    return 1;
}
