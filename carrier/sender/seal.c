#include "seal.h"
#include "clock.h"
#include "text.h"

#include <stdio.h>
#include <stdlib.h>
#include <string.h>
#include <sys/random.h>

/* The first byte of a record's user data: of a text, of several, and of the close, which has no more. */
enum { TEXT = 'D', BATCH = 'B', CLOSE = 'C' };

enum { RECORDS = 2048, BYTES = 1 << 20 }; /* that wait: so many at most, of so many bytes; the longest has room */

/* 16 bytes that nobody can foresee; they are drawn some hundred at a time. */
static int draw(uint8_t confounder[16])
{
    static uint8_t drawn[256];
    static size_t used = sizeof drawn;
    if (used == sizeof drawn) {
        if (getrandom(drawn, sizeof drawn, 0) != (ssize_t)sizeof drawn)
            return -1;
        used = 0;
    }
    memcpy(confounder, drawn + used, 16);
    explicit_bzero(drawn + used, 16);
    used += 16;
    return 0;
}

static enum answer stop(struct sealing *s, struct sending *it, sqlite3_int64 at, const char *reason)
{
    it->stopped_from = at;
    copy_cut(it->reason, sizeof it->reason, reason);
    s->stopped = it;
    return ANSWER_STOPPED;
}

/* What fails for another reason than that memory is out fails again: of the record with this index. */
static enum answer judge(struct sealing *s, struct sending *it, size_t index, enum krbrelay_answer answer)
{
    char text[KRBRELAY_TEXT_SIZE];
    const struct record *record = it->first;
    report_answer("text_unsealed", it->of.name, it->sealed - it->waiting + index, answer);
    answer_text(answer, text);
    while (index-- > 0)
        record = record->next;
    return answer == KRBRELAY_MEMORY ? ANSWER_FAULT : stop(s, it, record->begin, text);
}

/* ---- Records that wait */

/* The last number is kept for the close, as krb_peers keeps it. */
static int has_number(const struct sending *it, uint8_t kind)
{
    return it->sealed < UINT32_MAX || (it->sealed == UINT32_MAX && kind == CLOSE);
}

/* Adds a record, which gets the session's next number. */
static enum answer add_record(struct sealing *s, struct sending *it, uint8_t kind, const uint8_t *bytes,
                              size_t len)
{
    enum answer answer = ANSWER_DONE;
    struct record *record;
    if (!has_number(it, kind))
        return stop(s, it, it->begin, "it has no number left: it needs a new key");
    if (s->count == RECORDS || s->size + len + 1 > BYTES)
        answer = seal_all(s);
    if (answer != ANSWER_DONE)
        return answer;
    record = &s->records[s->count++];
    *record = (struct record){ it, it->begin, s->size, len + 1, NULL };
    s->bytes[s->size] = kind;
    if (len > 0)
        memcpy(s->bytes + s->size + 1, bytes, len);
    s->size += len + 1;
    *(it->first == NULL ? &it->first : &it->last->next) = record;
    it->last = record;
    it->waiting++;
    it->sealed++;
    return ANSWER_DONE;
}

void seal_forget(struct sealing *s)
{
    explicit_bzero(s->bytes, s->size);
    s->count = s->size = 0;
}

/* ---- Sealing them */

/* A session's sealer at its first record that isn't sealed. */
static enum krbrelay_answer make_sealer(struct sending *it)
{
    const struct session *of = &it->of;
    const uint64_t number = it->sealed - it->waiting;
    struct krbrelay_session session = { .mode = of->mode, .first = (uint32_t)number, .sender = of->from };
    uint64_t next = number;
    enum krbrelay_answer answer = krbrelay_sealer_next(&it->sealer, &next);
    if (answer == KRBRELAY_EMPTY)
        answer = krbrelay_sealer_new(&it->sealer, of->etype, of->key, of->key_len, &session);
    return answer == KRBRELAY_OK && next != number ? KRBRELAY_ARGUMENT : answer; /* never: both count each record */
}

/* The next records of a session that one call seals: how many, 0 if nothing can be drawn. */
static size_t gather(const struct sealing *s, const struct sending *it, struct krbrelay_unsealed *to)
{
    const struct krbrelay_moment now = read_clock();
    const struct record *record = it->first;
    size_t count = 0, room = KRBRELAY_FRAME_LIMIT;
    while (record != NULL && count < KRBRELAY_MOST_MESSAGES && KRBRELAY_FRAME_SIZE(record->len) <= room) {
        to[count] = (struct krbrelay_unsealed){ s->bytes + record->at, record->len, now, { 0 } };
        if (draw(to[count++].confounder) != 0)
            return 0;
        room -= KRBRELAY_FRAME_SIZE(record->len);
        record = record->next;
    }
    return count;
}

/* Stores the frames of a session's first records. */
static enum answer store_frames(struct sealing *s, struct sending *it, const size_t *sizes, size_t count)
{
    const uint8_t *frame = s->made;
    size_t i;
    for (i = 0; i < count; i++) {
        if (history_add(&it->history, frame, sizes[i]) != 0
            || outbox_add_frame(s->outbox, it->of.name, it->sealed - it->waiting, frame, sizes[i],
                                &it->history) != ANSWER_DONE)
            return ANSWER_FAULT;
        frame += sizes[i];
        it->first = it->first->next;
        it->waiting--;
    }
    s->frames += count;
    return ANSWER_DONE;
}

/* Seals the next records of a session. */
static enum answer seal_some(struct sealing *s, struct sending *it)
{
    struct krbrelay_unsealed some[KRBRELAY_MOST_MESSAGES];
    size_t sizes[KRBRELAY_MOST_MESSAGES], failed = 0, count = gather(s, it, some);
    const uint64_t began = nanoseconds();
    enum krbrelay_answer answer;
    if (count == 0)
        return ANSWER_FAULT;
    answer = make_sealer(it);
    if (answer == KRBRELAY_OK)
        answer = krbrelay_sealer_seal_many(&it->sealer, some, count, s->made, KRBRELAY_FRAME_LIMIT, sizes, &failed);
    explicit_bzero(some, count * sizeof *some);
    s->nanoseconds += nanoseconds() - began;
    return answer == KRBRELAY_OK ? store_frames(s, it, sizes, count) : judge(s, it, failed, answer);
}

enum answer seal_all(struct sealing *s)
{
    enum answer answer = ANSWER_DONE;
    size_t i = 0;
    while (i < s->count && answer == ANSWER_DONE)
        if (s->records[i].of->first != NULL)
            answer = seal_some(s, s->records[i].of);
        else
            i++;
    seal_forget(s);
    return answer == ANSWER_DONE && outbox_insert(s->outbox) != ANSWER_DONE ? ANSWER_FAULT : answer;
}

/* ---- Texts */

/* Room for another text of so many bytes. */
static enum answer grow(struct sending *it, size_t len)
{
    size_t wanted = it->size + len + 4;
    uint8_t *more;
    if (wanted <= it->batch_room)
        return ANSWER_DONE;
    more = realloc(it->batch, 2 * wanted);
    if (more == NULL)
        return ANSWER_FAULT;
    it->batch = more;
    it->batch_room = 2 * wanted;
    return ANSWER_DONE;
}

enum answer seal_rest(struct sealing *s, struct sending *it)
{
    size_t at = 0, len = 0;
    const uint8_t *text = NULL;
    enum answer answer = ANSWER_FAULT;
    if (it->texts == 0)
        return ANSWER_DONE;
    if (it->texts > 1)
        answer = add_record(s, it, BATCH, it->batch, it->size);
    else if (krbrelay_batch_next(it->batch, it->size, &at, &text, &len) == KRBRELAY_OK)
        answer = add_record(s, it, TEXT, text, len);
    it->texts = 0;
    it->size = 0;
    return answer;
}

/* The number that this text gets, as this part of its record. */
static enum answer note_sealed(struct sealing *s, const struct sending *it,
                               const struct waiting_text *text, unsigned part)
{
    return outbox_add_sealed(s->outbox, text, it->of.name, it->sealed, part) == ANSWER_DONE ? ANSWER_DONE
                                                                                  : ANSWER_FAULT;
}

enum answer seal_close(struct sealing *s, struct sending *it, sqlite3_int64 id)
{
    enum answer answer = seal_rest(s, it);
    it->begin = id;
    return answer == ANSWER_DONE ? add_record(s, it, CLOSE, NULL, 0) : answer;
}

/* The close that an application put in. */
static enum answer take_close(struct sealing *s, struct sending *it,
                              const struct waiting_text *text)
{
    enum answer answer = seal_rest(s, it);
    if (answer == ANSWER_DONE)
        answer = note_sealed(s, it, text, 0);
    return answer == ANSWER_DONE ? seal_close(s, it, text->id) : answer;
}

enum answer seal_text(struct sealing *s, struct sending *it, const struct waiting_text *text)
{
    char reason[64];
    enum answer answer = ANSWER_DONE;
    if (text->body == NULL)
        return take_close(s, it, text);
    if (text->len > TEXT_BYTES) {
        write_cut(reason, sizeof reason, "a text has %zu bytes: the most are %d", text->len,
                  TEXT_BYTES);
        return stop(s, it, text->id, reason);
    }
    if (s->batch == 1) {
        it->begin = text->id;
        answer = note_sealed(s, it, text, 0);
        return answer == ANSWER_DONE ? add_record(s, it, TEXT, text->body, text->len) : answer;
    }
    if (it->texts > 0 && it->size + text->len > BATCH_BYTES)
        answer = seal_rest(s, it);
    if (answer != ANSWER_DONE)
        return answer;
    if (grow(it, text->len) != ANSWER_DONE ||
        krbrelay_batch_add(it->batch, it->batch_room, &it->size, text->body, text->len) != KRBRELAY_OK)
        return ANSWER_FAULT;
    if (it->texts == 0)
        it->begin = text->id;
    answer = note_sealed(s, it, text, it->texts++);
    return answer == ANSWER_DONE && it->texts >= s->batch ? seal_rest(s, it) : answer;
}

/* A sealer doesn't go back: another one is made at the number that is stored. */
void seal_reset(struct sending *it, const struct history *history)
{
    if (it->sealed != it->end.progress.next)
        krbrelay_sealer_free(&it->sealer);
    it->sealed = it->end.progress.next;
    it->first = it->last = NULL;
    it->waiting = 0;
    it->history = *history;
    it->texts = 0;
    it->size = 0;
}

enum answer seal_begin(struct sealing *s, struct outbox *outbox, unsigned batch)
{
    *s = (struct sealing){ .outbox = outbox, .batch = batch };
    s->records = calloc(RECORDS, sizeof *s->records);
    s->bytes = malloc(BYTES);
    s->made = malloc(KRBRELAY_FRAME_LIMIT);
    return s->records != NULL && s->bytes != NULL && s->made != NULL ? ANSWER_DONE : ANSWER_FAULT;
}

void seal_end(struct sealing *s)
{
    if (s->bytes != NULL)
        explicit_bzero(s->bytes, BYTES);
    free(s->records);
    free(s->bytes);
    free(s->made);
}

void seal_free(struct sending *it)
{
    krbrelay_sealer_free(&it->sealer);
    krbrelay_opener_free(&it->receipts);
    if (it->batch != NULL)
        explicit_bzero(it->batch, it->batch_room);
    free(it->batch);
}
