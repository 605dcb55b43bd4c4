#include "blocks.h"
#include "cases.h"
#include "session.h"

#include <stdio.h>
#include <stdlib.h>
#include <string.h>

/* Up to this size each allocation is refused alone, and then with all that follow it; beyond
 * ALL_REASONS, where a call takes long, none is but at the size of the longest text. */
enum { THOROUGH = 300, LONGEST_TEXT = 1000000, MORE_THAN_ASKED = 64 };

/* Ends at so many faults. */
#ifndef MOST_TOLD
#define MOST_TOLD 40
#endif

static struct tried tried;
static struct asked asked;
static const char *tried_call = "", *tried_why = "";
static FILE *lines;
static uint8_t first_out[BIG];

struct tried tried_so_far(void) { return tried; }
void tried_to(void *file) { lines = file; }
long tried_asked(void) { return asked.times; }

void is_so(int fact, const char *what)
{
    if (fact)
        return;
    tried.wrong++;
    printf("matrix: %s, %s, mode %u, etype %d, size %zu: not so: %s\n", tried_call, tried_why, given.mode,
           (int)given.etype, given.size, what);
    if (tried.wrong == MOST_TOLD) {
        printf("matrix: %d wrong, and there may be more\n", MOST_TOLD);
        exit(1);
    }
}

/* ---- what a call that succeeded has to have done */

/* The user data that a frame was sealed of: those given, after the letter of a record. */
static int holds_what_was_sealed(const struct call *call, const uint8_t *opened, size_t size)
{
    static const uint8_t letters[] = { 0, 'D', 'B', 'C' };
    size_t letter = call->of == OF_RECORDS;
    return size == given.body_len + letter && (!letter || opened[0] == letters[given.kind])
        && (given.body_len == 0 || memcmp(opened + letter, given.body, given.body_len) == 0);
}

static void sealed_frame_opens(const struct call *call)
{
    static uint8_t opened[BIG];
    struct krbrelay_opener opener = KRBRELAY_INIT;
    struct krbrelay_expect expect = expect_of(given.at_handle.mode);
    struct krbrelay_demand demand = { .how_number = KRBRELAY_REQUIRED, .number = NUMBER };
    struct krbrelay_moment at = moment(SECS, USEC);
    struct krbrelay_carried carried;
    size_t size = 0;
    is_so(told.size <= given.room, "the frame fits");
    is_so(krbrelay_opener_new(&opener, given.at_handle.etype, key, key_size(given.at_handle.etype), &expect)
          == KRBRELAY_OK, "an opener is made");
    is_so(krbrelay_opener_open(&opener, out, told.size, &demand, &at, opened, sizeof opened, &size, &carried)
          == KRBRELAY_OK, "what was sealed opens at its number");
    is_so(holds_what_was_sealed(call, opened, size), "what was opened is what was sealed");
    is_so(call->draws || (carried.seconds == SECS && carried.microseconds == USEC), "it tells the moment");
    krbrelay_opener_free(&opener);
}

static void carried_is_right(const struct krbrelay_carried *carried)
{
    struct krbrelay_carried right = {
        .seconds = SECS, .microseconds = USEC, .has_seconds = 1, .has_microseconds = 1, .has_number = 1,
        .number = NUMBER, .has_receiver = 1, .sender = host(1), .receiver = host(255)
    };
    is_so(memcmp(carried, &right, sizeof right) == 0, "what was carried is told");
}

static void header_is_right(void)
{
    int is_safe = given.mode == KRBRELAY_SAFE;
    struct krbrelay_header right = {
        .kind = given.mode, .etype = is_safe ? 0 : given.etype, .checksum_type = is_safe ? given.etype - 2 : 0,
        .has_number = (uint32_t)is_safe, .number = is_safe ? NUMBER : 0
    };
    is_so(memcmp(&told.header, &right, sizeof right) == 0, "the header is told");
}

static int tells_number(const struct call *call)
{
    return call == call_of("receiver_take_numbered") || call == call_of("receiver_take_many");
}

static void opened_is_right(const struct call *call)
{
    if (call->uses == NO_HANDLE) {
        header_is_right();
        return;
    }
    is_so(told.size == given.gives_len && memcmp(out, given.gives, told.size) == 0,
          "what was opened is what was sealed");
    if (call->of == OF_RECORDS)
        is_so(told.kind == given.gives_kind, "the kind of record is told");
    if (tells_number(call))
        is_so(told.number == NUMBER, "the number is told");
    if (call == call_of("opener_open") || call == call_of("peer_open"))
        carried_is_right(&told.carried);
}

static int takes_several(const struct call *call)
{
    return strstr(call->name, "_seal_many") != NULL;
}

/* How many messages it seals. */
static unsigned messages_of(const struct call *call) { return takes_several(call) ? given.messages : 1; }

/* The number rises by one for each message, of what the call counts. */
static uint64_t numbers_after(const struct call *call, uint64_t before)
{
    if (call->does == SEALS)
        return before + ((uint64_t)messages_of(call) << 33);
    return call->does == OPENS && call->uses != OPENER && call->uses != NO_HANDLE ? before + 2 : before;
}

static void succeeded(const struct call *call, uint64_t before)
{
    if (call->does == MAKES)
        is_so(handles_held() == 1, "it holds what was made");
    else if (call->does != ASKS_NOTHING)
        is_so(handles_numbers() == numbers_after(call, before), "the number rises by one for each message");
    if (call->does == SEALS)
        sealed_frame_opens(call);
    if (call->does == OPENS)
        opened_is_right(call);
}

/* ---- what one that didn't has to have left */

static void number_at_badorder(const struct call *call)
{
    if (tells_number(call))
        is_so(told.number == NUMBER, "at BADORDER the number is told");
    if (call == call_of("peer_open"))
        carried_is_right(&told.carried);
}

static void peer_exports(uint64_t before)
{
    uint8_t state[KRBRELAY_PEER_STATE_SIZE] = { 0 };
    uint64_t next = 0, expected = 0;
    if (handles.peer.count == 0)
        return;
    is_so(krbrelay_peer_export(&handles.peer, state) == KRBRELAY_OK, "a peer exports after a refusal");
    for (int i = 0; i < 8; i++) {
        next = next << 8 | state[4 + i];
        expected = expected << 8 | state[12 + i];
    }
    is_so((next << 33 ^ expected << 1) == before, "the export after a refusal has the numbers before it");
}

static void refused(const struct call *call, uint32_t answer, uint64_t before)
{
    if (call->does == MAKES) {
        is_so(handles_held() == 0, "it holds nothing");
        return;
    }
    is_so(handles_numbers() == before, "the numbers stay");
    peer_exports(before);
    if (answer == KRBRELAY_BADORDER)
        number_at_badorder(call);
    is_so(nothing_is_told(answer == KRBRELAY_BADORDER), "nothing is written");
}

/* ---- what it may ask the allocator for */

static void asked_is_bounded(const struct call *call, uint32_t answer)
{
    size_t size = call->does == OPENS ? given.frame_len : krbrelay_frame_size(given.body_len + 1);
    if (call->does == ASKS_NOTHING || answer == KRBRELAY_TOO_LONG || answer == KRBRELAY_RECORD
        || (call->does == MAKES && answer != KRBRELAY_OK))
        is_so(asked.times == 0, "it asks the allocator for nothing");
    if (call->does == SEALS || call->does == OPENS) {
        is_so(asked.bytes <= messages_of(call) * (2 * size + MORE_THAN_ASKED), "it asks for at most twice the frame's bytes");
        is_so(asked.largest <= size + messages_of(call) * MORE_THAN_ASKED, "no block is larger than the frame");
    }
    if (call->does == SEALS && call->of == OF_DATA && given.mode == KRBRELAY_PRIV && answer == KRBRELAY_OK
        && !takes_several(call))
        is_so(asked.times == 1, "a KRB-PRIV is sealed in one block");
    if (call->does == MAKES && answer == KRBRELAY_OK)
        is_so(asked.times > 0 && asked.largest < 4096, "a handle is a small block");
}

/* ---- a case */

static void out_of_memory(struct call *call, uint32_t answer, long at, int and_all_after)
{
    long refused_before = blocks_seen().refused;
    uint64_t before;
    uint32_t told_answer;
    tried.runs++;
    handles_made(call->uses, call->does == MAKES);
    before = handles_numbers();
    blocks_refuse(at, and_all_after);
    told_answer = call->made();
    blocks_refuse(-1, 0);
    is_so(blocks_seen().refused > refused_before, "an allocation was refused");
    is_so(told_answer == KRBRELAY_MEMORY, "it answers MEMORY, for an allocation was refused");
    refused(call, told_answer, before);
    told_answer = call->made();
    is_so(told_answer == answer, "after MEMORY it answers as before");
    if (call->does == SEALS && answer == KRBRELAY_OK && !call->draws)
        is_so(memcmp(out, first_out, told.size) == 0, "after MEMORY it seals the same");
    if (call->does == OPENS && answer == KRBRELAY_OK)
        opened_is_right(call);
    out_anew();
    is_so(handles_ended() == 0, "no block is left");
}

static void with_each_refusal(struct call *call, uint32_t answer, long times)
{
    if (given.size > ALL_REASONS && given.size != LONGEST_TEXT)
        return;
    for (long at = 0; at < times; at++)
        for (int and_all_after = 0; and_all_after <= (given.size <= THOROUGH); and_all_after++)
            out_of_memory(call, answer, at, and_all_after);
}

static void tell_line(const struct call *call, uint32_t answer)
{
    if (lines != NULL)
        fprintf(lines, "%s\t%s\t%u\t%d\t%zu\t%u\t%ld\t%zu\t%zu\n", call->name, tried_why, given.mode,
                (int)given.etype, given.size, answer, asked.times, asked.bytes, asked.largest);
}

void try_call(struct call *call, const char *why, uint32_t answer)
{
    long found = blocks_seen().found;
    uint64_t before;
    uint32_t given_answer;
    tried_call = call->name;
    tried_why = why;
    tried.cases++;
    tried.runs++;
    call->cases++;
    handles_made(call->uses, call->does == MAKES);
    before = handles_numbers();
    blocks_count_anew();
    given_answer = call->made();
    asked = blocks_asked();
    is_so(given_answer == answer, "the answer");
    if (given_answer == KRBRELAY_OK)
        succeeded(call, before);
    else
        refused(call, given_answer, before);
    asked_is_bounded(call, given_answer);
    if (call->does == SEALS && given_answer == KRBRELAY_OK)
        memcpy(first_out, out, told.size);
    out_anew();
    is_so(handles_ended() == 0, "no block is left");
    with_each_refusal(call, answer, asked.times);
    is_so(blocks_seen().found == found, "no freed block has a secret");
    if (blocks_seen().found != found)
        printf("matrix: %s at %zu of %zu freed bytes\n", blocks_seen().last_found, blocks_seen().at,
               blocks_seen().of);
    tell_line(call, given_answer);
}
