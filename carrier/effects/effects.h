/* Which effect a text has: the one that --effect names, or, without it, a row of `effect` (effect.c).
 *
 *   sql:STATEMENT   one statement of the store, in which :session, :client, :stream, :number, :part and :text
 *                   stand for the text's own (effect_statement.c)
 *   object:FILE     `take_effect` of a shared object, which has the form that effect.h declares
 *   command:WORDS   a command for the shell, which answers each text (effect_command.c)
 *
 * Where an effect fails, the texts are taken one by one (shard_transaction.c), and one that is refused then is named: it
 * is tried again, since what refuses it now may take it later, and what follows in its shard waits. With --put-aside N it
 * becomes a row of the table `aside` once it was refused N times, with the reason, and its session goes on. Only what
 * the text itself is the cause of counts as a refusal: a constraint that it violates, a value that a statement can't have,
 * or an exception that a trigger raises (`refusal` of a store), and what a command says. A store that is away, a table
 * that isn't there, a command that ends: those are faults, and never put a text aside. */
#ifndef EFFECTS_H
#define EFFECTS_H

#include "effect.h"

/* Ends the program with status 2 and a message unless the word is of that form, or NULL. */
void effects_check_option(const char *program, const char *word);

/* Chooses it, before any shard is served; NULL is the effect of effect.c. */
enum answer effects_choose(const char *word, unsigned tries);

/* Whether it is a command, whose work no rollback undoes; whether texts may be put aside. */
int effects_are_outside(void);
int effects_may_put_aside(void);

/* The outcome of the effect of one text: it is done, or asked for; the text is refused; it can't be had now; the store has
 * a fault, as where it refuses values of a text that wasn't taken alone. */
enum { EFFECT_SECONDS = 70 }; /* so long a command may take for one text, and some more */

/* Texts of one shard that were refused, and how often. */
struct refusals;

/* The effect of one text, perhaps alone: then it is waited for, and a refusal is noted. The shard's refusals are made when
 * they are first needed; whoever serves the shard frees them with it. */
enum answer effects_take(struct store *store, const struct arrived *it, int is_alone, struct refusals **of);

/* Whether a text was refused so often that it is put aside; puts it there, in a transaction. */
int effects_are_refused(const struct refusals *of, const struct arrived *it);
enum answer effects_put_aside(struct store *store, const struct refusals *of, const struct arrived *it);

/* ---- For effects: one that refuses a text says why, and answers ANSWER_REFUSED. */

enum { EFFECT_REASON = 256 };
typedef enum answer effect_call(struct store *store, const struct arrived *it, char reason[EFFECT_REASON]);

enum answer statement_choose(const char *statement);
effect_call statement_take;
enum answer command_choose(const char *words);
effect_call command_take;

#endif
