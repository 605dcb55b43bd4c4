/* Threads: each of SENDERS threads has a peer of its own, one thread has the other ends of all and
 * receives through a pipe, and one more peer passes from thread to thread under a mutex. A handle
 * belongs to one call at a time, whichever thread makes it. A message without user data ends a session.
 *     threads TEXTS       so many from each sender */
#include <krbrelay.h>

#include <pthread.h>
#include <stdio.h>
#include <stdlib.h>
#include <string.h>
#include <unistd.h>

enum { SENDERS = 4, TEXT = 64, ROOM = KRBRELAY_FRAME_SIZE(TEXT), ETYPE = 18 };

/* Fewer bytes than PIPE_BUF: one write puts all of them into the pipe, and one read takes them. */
struct item { int from; size_t len; uint8_t frame[ROOM]; };

static const struct krbrelay_address alice = { KRBRELAY_IPV4, 4, { 10, 0, 0, 1 } };
static const struct krbrelay_address bob = { KRBRELAY_IPV4, 4, { 10, 0, 0, 255 } };
static int ends[2], texts;
static struct krbrelay_peer shared = KRBRELAY_INIT;
static pthread_mutex_t lock = PTHREAD_MUTEX_INITIALIZER;

static void must(int is_so, const char *what, const char *why)
{
    if (is_so)
        return;
    fprintf(stderr, "%s: %s\n", what, why);
    exit(1);
}

static void answered(enum krbrelay_answer answer, const char *what)
{
    must(answer == KRBRELAY_OK, what, krbrelay_strerror(answer));
}

/* A session's key comes from the exchange before: here it is the sender's number in each byte. */
static void make_peer(struct krbrelay_peer *peer, int number, const struct krbrelay_address *here,
                      const struct krbrelay_address *there)
{
    struct krbrelay_session session = { .mode = KRBRELAY_PRIV, .sender = *here };
    struct krbrelay_demand demand = { .how_sender = KRBRELAY_REQUIRED, .sender = *there,
                                      .how_time = KRBRELAY_REQUIRED, .skew = 300,
                                      .how_number = KRBRELAY_REQUIRED };
    uint8_t key[32];
    memset(key, number, sizeof key);
    answered(krbrelay_peer_new(peer, ETYPE, key, sizeof key, &session, &demand), "no peer");
}

static size_t text_of(int sender, int number, char text[TEXT])
{
    return (size_t)snprintf(text, TEXT, "text %d of sender %d", number, sender);
}

static void *send_all(void *number)
{
    struct item it = { .from = (int)(intptr_t)number };
    struct krbrelay_peer peer = KRBRELAY_INIT;
    make_peer(&peer, it.from, &alice, &bob);
    for (int i = 0; i <= texts; i++) {
        char text[TEXT];
        uint8_t frame[ROOM];
        size_t len = i < texts ? text_of(it.from, i, text) : 0, size;
        answered(krbrelay_peer_seal_now(&peer, (uint8_t *)text, len, it.frame, sizeof it.frame, &it.len),
                 "not sealed");
        must(write(ends[1], &it, sizeof it) == sizeof it, "pipe", "not written");
        pthread_mutex_lock(&lock);
        answered(krbrelay_peer_seal_now(&shared, (uint8_t *)text, len, frame, sizeof frame, &size),
                 "not sealed by the shared peer");
        pthread_mutex_unlock(&lock);
    }
    krbrelay_peer_free(&peer);
    krbrelay_clear_stack();
    return NULL;
}

static void receive_all(void)
{
    struct krbrelay_peer peers[SENDERS] = { KRBRELAY_INIT };
    int taken[SENDERS] = { 0 }, open = SENDERS;
    for (int i = 0; i < SENDERS; i++)
        make_peer(&peers[i], i, &bob, &alice);
    while (open > 0) {
        struct item it;
        struct krbrelay_moment now;
        struct krbrelay_carried carried;
        uint8_t bytes[ROOM];
        char text[TEXT];
        size_t size = 0;
        must(read(ends[0], &it, sizeof it) == sizeof it, "pipe", "not read");
        answered(krbrelay_now(&now), "no time");
        answered(krbrelay_peer_open(&peers[it.from], it.frame, it.len, &now, bytes, sizeof bytes, &size,
                                    &carried), "not opened");
        if (size > 0)
            must(size == text_of(it.from, taken[it.from]++, text) && memcmp(bytes, text, size) == 0,
                 "opened", "another text");
        open -= size == 0;
    }
    for (int i = 0; i < SENDERS; i++) {
        printf("sender %d: %d texts, closed\n", i, taken[i]);
        krbrelay_peer_free(&peers[i]);
    }
}

int main(int argc, char **argv)
{
    pthread_t threads[SENDERS];
    uint64_t next = 0, expected = 0;
    texts = argc > 1 ? atoi(argv[1]) : 1000;
    must(pipe(ends) == 0, "pipe", "not made");
    make_peer(&shared, SENDERS, &alice, &bob);
    for (intptr_t i = 0; i < SENDERS; i++)
        must(pthread_create(&threads[i], NULL, send_all, (void *)i) == 0, "thread", "not started");
    receive_all();
    for (int i = 0; i < SENDERS; i++)
        must(pthread_join(threads[i], NULL) == 0, "thread", "not joined");
    answered(krbrelay_peer_state(&shared, &next, &expected), "no number");
    printf("shared peer: %llu messages\n", (unsigned long long)next);
    krbrelay_peer_free(&shared);
    krbrelay_clear_stack();
    return 0;
}
