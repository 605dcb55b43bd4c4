/* What streams of NATS JetStream and their consumers say: JSON, of which a few words are looked for. */
#include "clock.h"
#include "log.h"
#include "nats_carrier.h"
#include "text.h"

#include <stdio.h>
#include <stdlib.h>
#include <string.h>
#include <time.h>

#define NO_STREAM "\"err_code\":10059" /* what an answer says where there is no such stream */

enum {
    SHORTEST = 500, /* milliseconds to wait for what a stream answers, */
    LONGEST = 3500,
    SOON = 50,      /* for a consumer until another one is tried, and twice what an answer takes; then twice as long */
    TRIES = 4
};

/* ---- What an answer says */

/* The bytes of a message after a word, and how many there are; NULL if it doesn't have the word. */
static const char *after(natsMsg *message, const char *word, size_t *left)
{
    const char *data = natsMsg_GetData(message);
    size_t len = (size_t)natsMsg_GetDataLength(message), size = strlen(word);
    const char *place = len > 0 ? memmem(data, len, word, size) : NULL;
    if (place == NULL)
        return NULL;
    *left = len - (size_t)(place + size - data);
    return place + size;
}

int nats_says(natsMsg *message, const char *word)
{
    size_t left;
    return after(message, word, &left) != NULL;
}

/* The number after a word; 0 if it isn't there. */
uint64_t nats_number_after(natsMsg *message, const char *word)
{
    char digits[24];
    size_t left;
    const char *place = after(message, word, &left);
    if (place == NULL)
        return 0;
    write_cut(digits, sizeof digits, "%.*s", (int)(left < sizeof digits ? left : sizeof digits - 1), place);
    return strtoull(digits, NULL, 10);
}

/* Letters that servers write as \\u003e, and the like, become what they are. */
static void unescape(char *text)
{
    char *from = text, *to = text;
    unsigned letter;
    while (*from != 0) {
        int is_escaped = sscanf(from, "\\u00%2x", &letter) == 1 && letter >= ' ' && letter < 127;
        *to++ = is_escaped ? (char)letter : *from;
        from += is_escaped ? 6 : 1;
    }
    *to = 0;
}

void nats_read_description(natsMsg *message, char text[NATS_TEXT])
{
    size_t left = 0;
    const char *place = after(message, "\"description\":\"", &left);
    if (left >= NATS_TEXT)
        left = NATS_TEXT - 1;
    write_cut(text, NATS_TEXT, "%.*s", (int)left, place != NULL ? place : "");
    text[strcspn(text, "\"")] = 0;
    unescape(text);
}

/* When a stream was made, in nanoseconds since 1970; 0 if the answer doesn't tell. */
static uint64_t read_created(natsMsg *message)
{
    struct tm at = { 0 };
    char text[40];
    uint64_t nanosecond = 0, unit = 100000000;
    size_t left = 0;
    const char *place = after(message, "\"created\":\"", &left), *digit;
    write_cut(text, sizeof text, "%.*s", (int)(left < sizeof text ? left : sizeof text - 1), place ? place : "");
    digit = strptime(text, "%Y-%m-%dT%H:%M:%S", &at);
    if (digit == NULL)
        return 0;
    for (digit += *digit == '.'; *digit >= '0' && *digit <= '9'; digit++) {
        nanosecond += (uint64_t)(*digit - '0') * unit;
        unit /= 10;
    }
    return (uint64_t)timegm(&at) * 1000000000 + nanosecond;
}

/* ---- Streams */

void nats_name_stream(unsigned stream, char name[NATS_NAME])
{
    if (stream == NATS_RECEIPTS)
        strcpy(name, NATS_RECEIPTS_NAME);
    else
        write_whole(name, NATS_NAME, "KRB_%u", stream);
}

/* The subject of a stream that has one alone; or "". */
static void read_subject(natsMsg *answer, char subject[NATS_NAME])
{
    size_t left = 0, len;
    const char *place = after(answer, "\"subjects\":[\"", &left), *end = place != NULL ? memchr(place, '"', left) : NULL;
    len = end != NULL ? (size_t)(end - place) : 0;
    subject[0] = 0;
    if (len > 0 && len < NATS_NAME && left > len + 1 && end[1] == ']')
        write_whole(subject, NATS_NAME, "%.*s", (int)len, place);
}

natsStatus nats_read_stream(natsMsg *answer, struct nats_stream *it)
{
    *it = (struct nats_stream){ .created = read_created(answer) };
    if (nats_says(answer, "\"error\":"))
        return nats_says(answer, NO_STREAM) ? NATS_NOT_FOUND : NATS_ERR;
    it->last = nats_number_after(answer, "\"last_seq\":");
    it->messages = nats_number_after(answer, "\"messages\":");
    it->replicas = nats_number_after(answer, "\"num_replicas\":");
    it->is_by_limits = nats_says(answer, "\"retention\":\"limits\"");
    it->is_in_files = nats_says(answer, "\"storage\":\"file\"");
    it->keeps_all = (int64_t)nats_number_after(answer, "\"max_msgs_per_subject\":") <= 0;
    read_subject(answer, it->subject);
    return it->created != 0 ? NATS_OK : NATS_ERR;
}

/* Why a stream can't be a shard, or NULL: each frame has to stay until it was read. */
static const char *fault_of(const struct nats_carrier *c, const struct nats_stream *it)
{
    if (!it->is_by_limits)
        return "its retention isn't by limits: frames would go before all have read them";
    if (!it->keeps_all)
        return "it keeps some messages of each subject alone";
    if (!it->is_in_files)
        return "it isn't stored in files";
    if (it->replicas < c->replicas)
        return it->replicas == 1 ? "it has 1 replica, and --replicas asks for more"
                                 : "it has fewer replicas than --replicas asks for";
    return NULL;
}

natsStatus nats_judge_stream(const struct nats_carrier *c, const char *name, const struct nats_stream *it)
{
    const char *fault = fault_of(c, it);
    if (fault == NULL)
        return NATS_OK;
    log_fact(LEVEL_ERROR, "stream_unfit", field_text("stream", name), field_text("fault", fault),
             field_text("text", "change the stream, or give other options"));
    return NATS_ERR;
}

void nats_ask(struct nats_carrier *c, const char *what, const char *stream, const char *reply, const char *text)
{
    char subject[NATS_SUBJECT];
    natsStatus status;
    write_whole(subject, sizeof subject, "$JS.API.%s.%s", what, stream);
    status = natsConnection_PublishRequest(c->connection, subject, reply, text, (int)strlen(text));
    if (status != NATS_OK)
        nats_report("a stream", status);
}

void nats_write_stream(const struct nats_carrier *c, unsigned stream, char text[NATS_TEXT])
{
    char name[NATS_NAME], subjects[NATS_NAME] = NATS_RECEIPTS_SUBJECTS;
    nats_name_stream(stream, name);
    if (stream != NATS_RECEIPTS)
        write_whole(subjects, sizeof subjects, "krb.%u.*", stream);
    write_whole(text, NATS_TEXT, "{\"name\":\"%s\",\"subjects\":[\"%s\"],\"retention\":\"limits\","
                "\"max_consumers\":-1,\"max_msgs\":-1,\"max_bytes\":-1,\"discard\":\"old\",\"max_age\":0,"
                "\"max_msgs_per_subject\":%d,\"storage\":\"file\",\"num_replicas\":%u}", name, subjects,
                stream == NATS_RECEIPTS ? 1 : -1, c->replicas);
}

/* ---- Questions that are waited for */

/* Asks. The number of the question is the last word of the subject to which its answer comes. */
static natsStatus question(struct nats_carrier *c, const char *what, const char *stream, const char *text)
{
    char reply[NATS_SUBJECT];
    natsStatus status = c->replies == NULL ? nats_hear(c, "asked.*", &c->replies) : NATS_OK;
    if (status != NATS_OK)
        return status;
    write_whole(reply, sizeof reply, "%s.asked.%lu", (const char *)c->inbox, ++c->asked);
    nats_ask(c, what, stream, reply, text);
    return NATS_OK;
}

/* Waits for the answer to one of the questions from this one on; answers to earlier ones are of no use. */
static natsStatus await_answer(struct nats_carrier *c, unsigned long first, int wait, natsMsg **answer,
                               unsigned long *number)
{
    uint64_t end = milliseconds() + (uint64_t)wait, now;
    natsStatus status = NATS_OK;
    *number = 0;
    while (status == NATS_OK && *number < first) {
        nats_drop(c, *answer);
        *answer = NULL;
        now = milliseconds();
        status = nats_await(c, c->replies, answer, now < end ? (int)(end - now) : 0);
        if (status == NATS_OK)
            *number = strtoul(strrchr(natsMsg_GetSubject(*answer), '.') + 1, NULL, 10);
    }
    return status;
}

static int between(int number, int low, int high)
{
    return number < low ? low : number > high ? high : number;
}

/* The next question is waited for twice as long as this one took; after one in vain twice as long
 * as this one, but, where answers were fast, not much longer: then it isn't the distance. */
static void note_asked(struct nats_carrier *c, natsStatus status, uint64_t took)
{
    int limit = c->answered == 0 ? LONGEST : between(8 * c->answered, 2 * SHORTEST, LONGEST);
    if (status == NATS_TIMEOUT) {
        c->patience = between(2 * c->patience, SHORTEST, limit);
        return;
    }
    c->answered = (int)took + 1;
    c->patience = between(2 * (int)took, SHORTEST, LONGEST);
}

natsStatus nats_ask_stream(struct nats_carrier *c, const char *name, struct nats_stream *it)
{
    uint64_t began = milliseconds();
    natsMsg *answer = NULL;
    unsigned long number;
    natsStatus status = question(c, "STREAM.INFO", name, "");
    *it = (struct nats_stream){ 0 };
    c->patience = between(c->patience, SHORTEST, LONGEST);
    if (status == NATS_OK)
        status = await_answer(c, c->asked, c->patience, &answer, &number);
    note_asked(c, status, milliseconds() - began);
    if (status == NATS_OK)
        status = nats_read_stream(answer, it);
    nats_drop(c, answer);
    return status;
}

/* ---- Consumers */

/* Has one made whose messages come to a subject of its own. */
static natsStatus try_consumer(struct nats_carrier *c, const char *stream, const char *how, natsSubscription **to)
{
    char word[32], text[NATS_TEXT];
    natsStatus status;
    write_whole(word, sizeof word, "frames.%lu", c->asked + 1);
    status = nats_hear(c, word, to);
    if (status != NATS_OK)
        return status;
    write_whole(text, sizeof text, "{\"stream_name\":\"%s\",\"config\":{\"deliver_subject\":\"%s.%s\","
                "\"ack_policy\":\"none\",\"replay_policy\":\"instant\",\"num_replicas\":1,\"mem_storage\":true,%s}}",
                stream, (const char *)c->inbox, word, how);
    return question(c, "CONSUMER.CREATE", stream, text);
}

/* Ends those that were tried but for one, if one is there. Servers forget a consumer to which nobody listens. */
static void end_others(natsSubscription **tried, int count, int kept)
{
    int i;
    for (i = 0; i < count; i++)
        if (i != kept)
            nats_leave(&tried[i]);
}

natsStatus nats_consume(struct nats_carrier *c, const char *stream, const char *how, int longer, natsSubscription **reader)
{
    natsSubscription *tried[TRIES] = { NULL };
    unsigned long first = c->asked + 1, number = 0;
    int count = 0, wait = SOON + 2 * c->answered + longer, is_there;
    natsStatus status = NATS_TIMEOUT;
    natsMsg *answer = NULL;
    while (status == NATS_TIMEOUT && count < TRIES) {
        status = try_consumer(c, stream, how, &tried[count]);
        count += tried[count] != NULL;
        if (status == NATS_OK)
            status = await_answer(c, first, wait, &answer, &number);
        wait *= 2;
    }
    if (status == NATS_OK && nats_says(answer, "\"error\":"))
        status = NATS_ERR;
    is_there = status == NATS_OK && number - first < (unsigned long)count;
    end_others(tried, count, is_there ? (int)(number - first) : -1);
    *reader = is_there ? tried[number - first] : NULL;
    nats_drop(c, answer);
    return is_there || status != NATS_OK ? status : NATS_ERR;
}

/* The text after so many dots, or NULL. */
static const char *after_dots(const char *text, int dots)
{
    while (text != NULL && dots-- > 0) {
        text = strchr(text, '.');
        if (text != NULL)
            text++;
    }
    return text;
}

/* The number at the end of which the text goes on. */
static uint64_t next_number(const char **text)
{
    char *end;
    uint64_t number = strtoull(*text, &end, 10);
    *text = end + (*end == '.');
    return number;
}

/* The subject for an acknowledgement: $JS.ACK.STREAM.CONSUMER.TIMES.OFFSET.TURN.TIME.LEFT, where a domain and an account
 * may stand before the stream. */
int nats_read_place(natsMsg *message, struct nats_place *it)
{
    const char *reply = natsMsg_GetReply(message);
    const char *at = after_dots(reply, after_dots(reply, 9) == NULL ? 5 : 7);
    if (at == NULL)
        return 0;
    it->offset = next_number(&at);
    it->turn = next_number(&at);
    (void)next_number(&at); /* the time */
    it->left = next_number(&at);
    return it->offset > 0 && it->turn > 0;
}
