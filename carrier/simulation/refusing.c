/* The effect of a text, in front of that of effect.c (--wrap): slow, or refused as a database refuses. */
#include "effects.h"
#include "ports.h"

#include <stdlib.h>
#include <string.h>

#define WATCHDOG (60 * SECOND) /* of systemd: a step that takes longer is ended */

/* Two statements that no database takes: a constraint that a row violates, and a function's error. */
static const char constraint[] = "INSERT INTO aside (session) VALUES (NULL)";
static const char error[] = "INSERT INTO aside (session, number, part, text, client, stream, reason)"
                            " SELECT 's', 0, 0, x'', '', '', json_extract('x{', '$')";

struct poisons poisons;

static const struct poison *poison_of(unsigned name, unsigned serial)
{
    unsigned i;
    for (i = 0; i < poisons.count; i++)
        if (poisons.at[i].name == name && poisons.at[i].serial == serial && now < poisons.at[i].until)
            return &poisons.at[i];
    return NULL;
}

static void be_slow(void)
{
    if (faults.slow_effects == 0)
        return;
    happened(KIND_SLOW_EFFECTS, 1);
    spend(faults.slow_effects * MILLISECOND);
    if (moment() - now <= WATCHDOG)
        return;
    seen.watchdogs++;
    party_killed();
}

WRAPPED(enum answer, take_effect, struct store *store, const struct arrived *it)
{
    unsigned name = name_of(it->stream[0] != 0 ? it->stream : it->session);
    unsigned serial = it->len == 2 ? (unsigned)it->text[0] << 8 | it->text[1] : MOST_TEXTS;
    const struct poison *poison = NULL;
    if (name < MOST_NAMES && serial < MOST_TEXTS) {
        seen.runs[name][serial] = (unsigned short)(seen.runs[name][serial] + (seen.runs[name][serial] < UINT16_MAX));
        poison = poison_of(name, serial);
    }
    be_slow();
    if (poison == NULL)
        return __real_take_effect(store, it);
    happened(has(KIND_REFUSED_MANY) ? KIND_REFUSED_MANY : has(KIND_REFUSED) ? KIND_REFUSED : KIND_REFUSED_A_WHILE, 1);
    (void)store_run(store, poison->is_error ? error : constraint, NULL, 0); /* the store refuses both */
    return ANSWER_FAULT;
}
