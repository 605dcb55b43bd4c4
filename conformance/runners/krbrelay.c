/* The runner of libkrbrelay. Its word says by which call it reads:
 *   opener    krbrelay_opener_open
 *   absent    the same, where no number counts as the number 0 (KRBRELAY_ABSENT_IS_0)
 *   unseal    krbrelay_opener_unseal
 *   peer      krbrelay_peer_open
 *   receiver  krbrelay_receiver_take, of records */
#include "runner.h"
#include <krbrelay.h>

enum way { OPENER, ABSENT, UNSEAL, PEER, RECEIVER, WAYS };

static const char *const names[WAYS] = { "opener", "absent", "unseal", "peer", "receiver" };
static enum way way;
static struct krbrelay_opener opener;
static struct krbrelay_peer peer;
static struct krbrelay_receiver receiver;
static struct krbrelay_demand demand;
static struct krbrelay_moment now;
static uint64_t number;

static int set_address(struct krbrelay_address *to, const struct host *from)
{
    if (from->address.size > sizeof to->bytes)
        return 0;
    to->kind = from->type;
    to->len = (uint32_t)from->address.size;
    if (from->address.size > 0)
        memcpy(to->bytes, from->address.at, from->address.size);
    return 1;
}

static int set_demand(const struct asked *asked)
{
    demand = (struct krbrelay_demand){ .how_time = (uint32_t)asked->time,
                                       .skew = asked->time ? (uint32_t)asked->skew : 0,
                                       .number = asked->numbered ? asked->number : 0,
                                       .needs_time_or_number = (uint32_t)asked->time_or_number };
    if (asked->sender.present)
        demand.how_sender = KRBRELAY_REQUIRED;
    if (asked->receiver.present)
        demand.how_receiver = asked->receiver_required ? KRBRELAY_REQUIRED : KRBRELAY_IF_PRESENT;
    if (asked->numbered)
        demand.how_number = way == ABSENT ? KRBRELAY_ABSENT_IS_0 : KRBRELAY_REQUIRED;
    return set_address(&demand.sender, &asked->sender) && set_address(&demand.receiver, &asked->receiver);
}

static int begin(const struct asked *asked)
{
    struct krbrelay_expect expect = { .mode = asked->safe ? KRBRELAY_SAFE : KRBRELAY_PRIV };
    struct krbrelay_session session = { .mode = expect.mode };
    if (!set_demand(asked))
        return 0;
    now = (struct krbrelay_moment){ (uint64_t)asked->seconds, (uint32_t)asked->microseconds, 0 };
    number = asked->number;
    if (way == PEER)
        return krbrelay_peer_new(&peer, asked->etype, asked->key.at, asked->key.size, &session, &demand)
            == KRBRELAY_OK;
    if (way == UNSEAL || way == RECEIVER) {
        expect.sender = demand.sender;
        expect.receiver = demand.receiver;
        expect.require_receiver = (uint32_t)asked->receiver_required;
        expect.require_time = asked->time == TIME_REQUIRED;
        expect.skew = (uint32_t)asked->skew;
    }
    if (way == RECEIVER)
        return krbrelay_receiver_new(&receiver, asked->etype, asked->key.at, asked->key.size, &expect,
                                     number, 0) == KRBRELAY_OK;
    return krbrelay_opener_new(&opener, asked->etype, asked->key.at, asked->key.size, &expect)
        == KRBRELAY_OK;
}

/* User data begin with the letter of their record. */
static enum krbrelay_answer take_record(struct bytes message, uint8_t *data, size_t *size)
{
    static const uint8_t letters[] = { 0, 'D', 'B', 'C' };
    uint32_t kind = 0;
    enum krbrelay_answer answer = krbrelay_receiver_take(&receiver, message.at, message.size, &now,
                                                         &kind, data + 1, message.size, size);
    if (answer == KRBRELAY_OK) {
        data[0] = letters[kind];
        *size += 1;
    }
    return answer;
}

static enum krbrelay_answer read_message(struct bytes message, uint8_t *data, size_t *size)
{
    struct krbrelay_carried carried;
    enum krbrelay_answer answer;
    memset(&carried, 0, sizeof carried);
    switch (way) {
    case RECEIVER:
        return take_record(message, data, size);
    case UNSEAL:
        answer = krbrelay_opener_unseal(&opener, message.at, message.size, number, &now, data,
                                        message.size, size);
        number += answer == KRBRELAY_OK;
        return answer;
    case PEER:
        return krbrelay_peer_open(&peer, message.at, message.size, &now, data, message.size, size,
                                  &carried);
    default:
        return krbrelay_opener_open(&opener, message.at, message.size, &demand, &now, data,
                                    message.size, size, &carried);
    }
}

static void take(const struct asked *asked, struct bytes message)
{
    uint8_t *data = malloc(message.size + 1);
    size_t size = 0;
    (void)asked;
    if (data == NULL)
        exit(3);
    enum krbrelay_answer answer = read_message(message, data, &size);
    if (answer == KRBRELAY_OK)
        say_ok(data, size);
    else
        say_no(answer);
    free(data);
}

static void end(const struct asked *asked)
{
    (void)asked;
    krbrelay_opener_free(&opener);
    krbrelay_peer_free(&peer);
    krbrelay_receiver_free(&receiver);
}

int main(int count, char **words)
{
    while (way < WAYS && (count != 2 || strcmp(words[1], names[way]) != 0))
        way++;
    if (way == WAYS) {
        fputs("usage: krbrelay opener|absent|unseal|peer|receiver\n", stderr);
        return 2;
    }
    return run();
}
