/* The socket of the connection to NATS. No thread of libnats reads or writes there, as that of a connection without an
 * event loop: the carrier's own thread does, in its calls, and it waits for the descriptor of an epoll that has the
 * socket. What is published leaves with the next turn.
 *
 * A turn never waits. libnats would wait for the rest of a record of TLS, so a record is read once all of it has come.
 * libnats doesn't ask whether the server is there, since its timer would take a thread that is busy for a server that
 * doesn't answer: a word is published that the server has to give back. Once libnats has connected again by itself, another
 * connection is begun in the place of that one, which would read on in the message in which it was lost. */
#include "clock.h"
#include "nats_carrier.h"
#include "text.h"
#include "waiting.h"

#include <netinet/in.h>
#include <netinet/tcp.h>
#include <string.h>
#include <sys/epoll.h>
#include <sys/ioctl.h>
#include <sys/socket.h>
#include <unistd.h>

enum {
    QUIET = 1500,  /* milliseconds without a word of the server after which it is asked for one, */
    SILENT = 2000, /* and after which one that answers or takes nothing is left */
    FULL = 1 << 18 /* bytes that wait to leave, after which publishing waits */
};

/* ---- What libnats calls, also on a thread that connects */

/* What was sent and isn't acknowledged by the server's machine ends the connection. One that libnats has connected again is
 * left as it is, until another one is in its place. */
static natsStatus attach(void **data, void *loop, natsConnection *connection, natsSock socket)
{
    struct nats_carrier *c = loop;
    struct epoll_event it = { .events = EPOLLIN | EPOLLRDHUP };
    const unsigned limit = SILENT;
    (void)connection; /* whose socket it is: the carrier has no other */
    *data = c;
    if (__atomic_fetch_add(&c->sockets, 1, __ATOMIC_SEQ_CST) > 0)
        return NATS_OK;
    if (setsockopt(socket, IPPROTO_TCP, TCP_USER_TIMEOUT, &limit, sizeof limit) != 0
        || epoll_ctl(c->base.descriptor, EPOLL_CTL_ADD, socket, &it) != 0)
        return NATS_SYS_ERROR;
    __atomic_store_n(&c->socket, socket, __ATOMIC_SEQ_CST);
    return NATS_OK;
}

/* Nothing is read from there any more. */
static natsStatus read_no_more(void *data, bool reads)
{
    struct nats_carrier *c = data;
    int socket = __atomic_load_n(&c->socket, __ATOMIC_SEQ_CST);
    if (reads || socket < 0)
        return NATS_OK;
    __atomic_store_n(&c->socket, -1, __ATOMIC_SEQ_CST);
    (void)epoll_ctl(c->base.descriptor, EPOLL_CTL_DEL, socket, NULL); /* one that was closed isn't there any more */
    return NATS_OK;
}

/* Whether something waits to leave. */
static natsStatus write_or_not(void *data, bool writes)
{
    struct nats_carrier *c = data;
    struct epoll_event it = { .events = EPOLLIN | EPOLLRDHUP | (writes ? (unsigned)EPOLLOUT : 0) };
    int socket = __atomic_load_n(&c->socket, __ATOMIC_SEQ_CST);
    if (socket >= 0)
        (void)epoll_ctl(c->base.descriptor, EPOLL_CTL_MOD, socket, &it); /* the same */
    return NATS_OK;
}

static natsStatus detach(void *data)
{
    return read_no_more(data, false);
}

natsStatus nats_begin_events(struct nats_carrier *c)
{
    natsStatus status = NATS_SYS_ERROR;
    c->socket = -1;
    c->base.descriptor = epoll_create1(EPOLL_CLOEXEC);
    if (c->base.descriptor >= 0)
        status = natsOptions_SetEventLoop(c->options, c, attach, read_no_more, write_or_not, detach);
    if (status == NATS_OK)
        status = natsOptions_SetSendAsap(c->options, true); /* without a thread that flushes */
    return status == NATS_OK ? natsOptions_SetPingInterval(c->options, 0) : status;
}

void nats_end_events(struct nats_carrier *c)
{
    if (c->base.descriptor >= 0)
        (void)close(c->base.descriptor); /* nothing was written there */
}

/* ---- A turn */

/* Whether the next record of TLS has come as a whole. Else the socket isn't ready before it has. */
static int has_record(int socket)
{
    unsigned char head[5] = { 0 };
    int here = 0, needed = sizeof head;
    if (recv(socket, head, sizeof head, MSG_PEEK | MSG_DONTWAIT) == sizeof head)
        needed += head[3] << 8 | head[4];
    if (ioctl(socket, FIONREAD, &here) != 0 || here >= needed)
        needed = 1;
    (void)setsockopt(socket, SOL_SOCKET, SO_RCVLOWAT, &needed, sizeof needed); /* else turns find nothing until then */
    return needed == 1;
}

static int may_read(const struct nats_carrier *c, const struct epoll_event *it)
{
    return !c->is_secure || (it->events & (EPOLLRDHUP | EPOLLHUP | EPOLLERR)) != 0 || has_record(c->socket);
}

int nats_turn(struct nats_carrier *c)
{
    struct epoll_event it;
    if (epoll_wait(c->base.descriptor, &it, 1, 0) != 1)
        return 0;
    if ((it.events & EPOLLOUT) != 0)
        natsConnection_ProcessWriteEvent(c->connection);
    if (it.events == EPOLLOUT || !may_read(c, &it))
        return 0;
    natsConnection_ProcessReadEvent(c->connection);
    c->read = milliseconds();
    return 1;
}

natsStatus nats_next(struct nats_carrier *c, natsSubscription *from, natsMsg **message)
{
    natsStatus status = natsSubscription_NextMsg(message, from, 0);
    while (status == NATS_TIMEOUT && nats_turn(c))
        status = natsSubscription_NextMsg(message, from, 0);
    return status;
}

natsStatus nats_await(struct nats_carrier *c, natsSubscription *from, natsMsg **message, int wait)
{
    uint64_t end = milliseconds() + (uint64_t)wait;
    natsStatus status = nats_next(c, from, message);
    while (status == NATS_TIMEOUT && milliseconds() < end) {
        waiting_for(c->base.descriptor, end);
        status = nats_next(c, from, message);
    }
    return status;
}

/* ---- The server */

/* Ends the connection. */
static void cut(struct nats_carrier *c)
{
    int socket = __atomic_load_n(&c->socket, __ATOMIC_SEQ_CST);
    if (socket >= 0)
        (void)shutdown(socket, SHUT_RDWR); /* it may have ended by itself */
}

/* Without a connection libnats keeps what is published, up to a limit of its own. */
static int has_much_to_send(const struct nats_carrier *c)
{
    return natsConnection_Buffered(c->connection) > FULL && __atomic_load_n(&c->socket, __ATOMIC_SEQ_CST) >= 0;
}

void nats_let_leave(struct nats_carrier *c)
{
    uint64_t end = milliseconds() + SILENT;
    while (has_much_to_send(c) && milliseconds() < end)
        if (!nats_turn(c))
            waiting_for(c->base.descriptor, end);
    if (has_much_to_send(c))
        cut(c);
}

/* Asks the server for a word. Those that it gave before are of no use any more. */
static natsStatus ask_word(struct nats_carrier *c)
{
    char subject[NATS_SUBJECT];
    natsMsg *message = NULL;
    while (natsSubscription_NextMsg(&message, c->words, 0) == NATS_OK)
        nats_drop(c, message);
    c->asked_word = milliseconds();
    write_whole(subject, sizeof subject, "%s.word", (const char *)c->inbox);
    return natsConnection_Publish(c->connection, subject, NULL, 0);
}

int nats_is_lost(struct nats_carrier *c)
{
    uint64_t now = milliseconds();
    (void)nats_turn(c); /* whether it has read something is noted */
    if (c->connection == NULL)
        return now >= c->read + QUIET;
    if (natsConnection_Status(c->connection) != NATS_CONN_STATUS_CONNECTED)
        return 0;
    if (__atomic_load_n(&c->sockets, __ATOMIC_SEQ_CST) > 1)
        return 1;
    if (now >= c->read + QUIET && c->asked_word <= c->read)
        (void)ask_word(c); /* a connection that takes nothing is lost */
    else if (now >= c->read + QUIET && now - c->asked_word > SILENT)
        cut(c);
    return 0;
}

void nats_let_all_leave(struct nats_carrier *c, int wait)
{
    natsMsg *message = NULL;
    if (natsConnection_Status(c->connection) != NATS_CONN_STATUS_CONNECTED)
        return;
    if (__atomic_load_n(&c->sockets, __ATOMIC_SEQ_CST) > 1)
        natsConnection_ProcessWriteEvent(c->connection);
    else if (ask_word(c) == NATS_OK && nats_await(c, c->words, &message, wait) == NATS_OK)
        nats_drop(c, message);
}
