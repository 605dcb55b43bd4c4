#include "effects.h"
#include "carrier.h"
#include "log.h"
#include "text.h"
#include "option_words.h"

#include <dlfcn.h>
#include <stdlib.h>
#include <string.h>

enum { REMEMBERED = 4096 };

/* A text that was refused, and how often. */
struct refused { uint64_t number; unsigned part, times; char session[CARRIER_NAME], reason[EFFECT_REASON]; };

/* Those that a shard met last: a transaction that is given up may have many. */
struct refusals { size_t next; struct refused at[REMEMBERED]; };

static struct {
    effect_call *call;
    int (*of_object)(struct store *, const struct arrived *);
    unsigned tries;
} chosen;

/* ---- Which effect */

static enum answer take_row(struct store *store, const struct arrived *it, char *reason)
{
    (void)reason;
    return take_effect(store, it) == ANSWER_DONE ? ANSWER_DONE : ANSWER_FAULT;
}

static enum answer take_by_object(struct store *store, const struct arrived *it, char *reason)
{
    (void)reason;
    return chosen.of_object(store, it) == 0 ? ANSWER_DONE : ANSWER_FAULT;
}

static enum answer object_choose(const char *path)
{
    void *object = dlopen(path, RTLD_NOW | RTLD_LOCAL);
    void *found = object != NULL ? dlsym(object, "take_effect") : NULL;
    if (found == NULL) {
        log_fact(LEVEL_ERROR, "effect_not_loaded", field_text("file", path), field_text("text", dlerror()));
        return ANSWER_FAULT;
    }
    memcpy(&chosen.of_object, &found, sizeof found);
    return ANSWER_DONE;
}

/* Whether the word begins so; then `rest` is what follows. */
static int begins(const char *word, const char *with, const char **rest)
{
    size_t len = strlen(with);
    *rest = word + len;
    return strncmp(word, with, len) == 0;
}

void effects_check_option(const char *program, const char *word)
{
    const char *rest = NULL;
    if (word != NULL && !begins(word, "sql:", &rest) && !begins(word, "object:", &rest)
        && !begins(word, "command:", &rest))
        end_with(2, "%s: --effect: this is no effect: name sql:STATEMENT, object:FILE or command:WORDS\n", program);
}

static enum answer choose(const char *word)
{
    const char *rest = NULL;
    if (begins(word, "sql:", &rest)) {
        chosen.call = statement_take;
        return statement_choose(rest);
    }
    if (begins(word, "object:", &rest)) {
        chosen.call = take_by_object;
        return object_choose(rest);
    }
    /* effects_check_option let nothing else pass. */
    (void)begins(word, "command:", &rest);
    chosen.call = command_take;
    return command_choose(rest);
}

enum answer effects_choose(const char *word, unsigned tries)
{
    chosen.call = take_row;
    chosen.tries = tries;
    return word != NULL ? choose(word) : ANSWER_DONE;
}

int effects_are_outside(void)
{
    return chosen.call == command_take;
}

int effects_may_put_aside(void)
{
    return chosen.tries > 0;
}

/* ---- Texts that are refused */

static const struct refused *find(const struct refusals *of, const struct arrived *it)
{
    size_t i;
    for (i = 0; of != NULL && i < REMEMBERED; i++) {
        const struct refused *at = &of->at[i];
        if (at->times > 0 && at->number == it->number && at->part == it->part
            && strcmp(at->session, it->session) == 0)
            return at;
    }
    return NULL;
}

static struct refused *find_or_add(struct refusals *of, const struct arrived *it)
{
    const struct refused *found = find(of, it);
    struct refused *added;
    if (found != NULL)
        return &of->at[found - of->at];
    added = &of->at[of->next++ % REMEMBERED];
    *added = (struct refused){ .number = it->number, .part = it->part };
    (void)copy_text(added->session, sizeof added->session, it->session); /* its room is a name's */
    return added;
}

int effects_are_refused(const struct refusals *of, const struct arrived *it)
{
    const struct refused *found = chosen.tries > 0 ? find(of, it) : NULL;
    return found != NULL && found->times >= chosen.tries;
}

enum answer effects_put_aside(struct store *store, const struct refusals *of, const struct arrived *it)
{
    const char *reason = find(of, it)->reason;
    const struct value values[] = { text_value(it->session), number_value(it->number), number_value(it->part),
                                    bytes_value(it->text, it->len), text_value(it->client), text_value(it->stream),
                                    text_value(reason) };
    if (store_run(store, "INSERT INTO aside (session, number, part, text, client, stream, reason)"
                         " VALUES ($1, $2, $3, $4, $5, $6, $7)", values, 7) != ANSWER_DONE || store->settle(store) != ANSWER_DONE)
        return ANSWER_FAULT;
    log_fact(LEVEL_WARNING, "text_put_aside", field_text("session", it->session), field_number("number", it->number),
             field_number("part", it->part),
             field_text("text", "the table `aside` has it, with the reason, once the transaction is stored"));
    return ANSWER_DONE;
}

/* Notes that a text was refused. What it says may have parts of a text: a store's columns take it as UTF-8 alone. */
static enum answer note(struct refusals *of, const struct arrived *it, const char *reason)
{
    struct refused *refused = find_or_add(of, it);
    refused->times++;
    copy_cut(refused->reason, sizeof refused->reason, reason);
    make_utf8(refused->reason);
    log_fact(LEVEL_WARNING, "text_refused", field_text("session", it->session), field_number("number", it->number),
             field_number("part", it->part), field_number("times", refused->times));
    return ANSWER_REFUSED;
}

/* The effect of a text in a store: all that was asked before it is waited for, and then its own, so that a fault is
 * known to be of it. */
static enum answer take_settled(struct store *store, const struct arrived *it, char *reason)
{
    enum answer answer = store->settle(store) == ANSWER_DONE ? ANSWER_DONE : ANSWER_FAULT;
    const char *why;
    if (answer == ANSWER_DONE)
        answer = chosen.call(store, it, reason);
    if (answer == ANSWER_DONE && store->settle(store) != ANSWER_DONE)
        answer = ANSWER_FAULT;
    why = answer == ANSWER_FAULT ? store->refusal(store) : NULL;
    if (why == NULL)
        return answer;
    copy_cut(reason, EFFECT_REASON, why);
    return ANSWER_REFUSED;
}

/* The log names it, since its shard waits for it. */
static enum answer tell_later(const struct arrived *it, enum answer answer)
{
    log_fact(LEVEL_WARNING, "text_waits", field_text("session", it->session), field_number("number", it->number),
             field_number("part", it->part),
             field_text("text", answer == ANSWER_LATER
                     ? "its effect can't be had now: it is tried again, and its shard waits"
                                                       : "the store has a fault at it: it is tried again, and its shard waits"));
    return answer;
}

enum answer effects_take(struct store *store, const struct arrived *it, int is_alone, struct refusals **of)
{
    char reason[EFFECT_REASON] = "";
    enum answer answer;
    if (!is_alone && !effects_are_outside())
        return chosen.call(store, it, reason);
    if (*of == NULL && (*of = calloc(1, sizeof **of)) == NULL)
        return ANSWER_FAULT;
    answer = effects_are_outside() ? chosen.call(store, it, reason) : take_settled(store, it, reason);
    if (answer == ANSWER_REFUSED)
        return note(*of, it, reason);
    return answer == ANSWER_DONE ? answer : tell_later(it, answer);
}
