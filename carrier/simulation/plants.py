"""Faults that are planted in the shipped programs, beside carrier/tests/mutants.py, and around the calls of krb_engine
(engine.c). Each of the programs has its edits: the file, the text that stands there once, and what takes its place."""

# Which profile, seed and rule finds each.
FOUND = {
    "digests aren't compared": ("forked+killed", 1, "LOST",
        ("sender_receipts.c", "own->is_known ? KRBRELAY_OWN_KNOWN : KRBRELAY_OWN_UNKNOWN", "KRBRELAY_OWN_UNKNOWN")),
    "a receipt above the next number is no receipt": ("restored", 1, "LEFT_OUT", ("sender_receipts.c", "RECEIPT_NONE",
         "RECEIPT_NONE || (read == RECEIPT_READ && receipt.n > it->end.progress.next)")),
    "receipts leave before the commit": ("uncommitted", 9, "LOST", ("shard_transaction.c", """\
        answer = s->store->commit""", """\
        answer = krbrelay_shard_stored(&s->ends) != KRBRELAY_OK;
    shard_pay(s);
    if (answer == 0)
        answer = s->store->commit""")),
    "what was dropped stays": ("uncommitted", 1, "LOST",
        ("shard_transaction.c", "return answer == ANSWER_ELSEWHERE ? KRBRELAY_FAILURE_FENCED : fault_of(s)", "answer = ANSWER_DONE")),
    "an early frame is taken for nobody's": ("cut", 1, "STANDS",
        ("shard.c", "if (opens == ANSWER_FOUND)", "if (opens == ANSWER_FOUND && number <= of->end_row.number)")),
    "a repeat is taken for nobody's": ("lost+killed", 19, "STANDS",
        ("shard.c", "if (opens == ANSWER_FOUND)", "if (opens == ANSWER_FOUND && number >= of->end_row.number)")),
    "a refused frame is taken for nobody's": ("skewed", 3, "UNTRUE",
        ("shard.c", "if (opens == ANSWER_FOUND)", "if (opens == ANSWER_FOUND && number != of->end_row.number)")),
    "a frame is accepted at any number": ("lost", 1, "OVERTAKEN", ("shard.c", "taken =", """\
taken = &s->call.taken[place - s->call.first];
    if (taken->answer == KRBRELAY_BADORDER && taken->number != UINT64_MAX && taken->number > of->end_row.number) {
        of->end_row.number = taken->number;
        krbrelay_receiver_free(&of->receiver);
        of->is_made = 0;
        if (make_receiver(s, of) != ANSWER_DONE)
            return ANSWER_FAULT;
        take_call(s, of, place, end);
    }
    taken =""")),
    "one item in a read is skipped": ("calm", 1, "LATE", ("shard.c", "s->fetched =", """\
for (size_t i = 1; i < count; i++)
        s->frames[i - 1] = s->frames[i];
    count -= count > 1;
    s->fetched =""")),
    "a session waits on after the one before it is done": ("tickets+kdc+skewed", 38, "LATE",
        ("sender_receipts.c", "it->end.done == it->end.progress.next)", "it->end.done > it->end.progress.next)")),
    "the session before is looked for once": ("tickets+keys", 17, "STANDS",
        ("shard_load.c", "|| it->end_row.number == it->of.first ?", "?")),
    "a second session after one is stored": ("forked+tickets+keys", 1, "DOUBLED", ("shard_open.c", """\
OPENING_FORKED;
    }
    return openings_judge(s->store, it)""", """\
OPENING_OK;
    }
    return OPENING_OK"""), ("store.c", "client,", "name, client,")),
    "rows aren't compared": ("moved+stopped+bursts", 115, "DOUBLED", ("sqlite_store.c", """\
next = ?7 AND closed = ?8 AND missed = ?9"
                      " AND at = ?10 AND shard = ?11""", """\
?7 IS NOT NULL AND ?8 IS NOT NULL AND ?9 IS NOT NULL"
                      " AND ?10 IS NOT NULL AND ?11 IS NOT NULL""")),
    "frames leave before they are stored": ("uncommitted", 1, "STANDS", ("sender.c", "answer == ANSWER_DONE && outbox_commit", """\
answer == ANSWER_DONE && outbox_insert(&s->outbox) == ANSWER_DONE) {
        note_kept(s);
        (void)turns_all(s);
    }
    if (answer == ANSWER_DONE && outbox_commit""")),
    "after a fault of the outbox nothing is loaded again": ("outbox_unknown", 2, "UNTOLD",
        ("sender.c", "answer == ANSWER_DONE; /* the commit may have happened */", "0;")),
    "an outbox takes transactions of two senders": ("taken_over", 1, "UNTRUE", ("outbox.c", "turn ==", "turn >="),
        ("outbox.c", "AND next = ?3", "AND ?3 IS NOT NULL")),
    "what was told is forgotten where a key is tried again": ("forked+tickets+keys", 103, "UNTOLD",
        ("sender_sessions.c", " && it->stopped_from == 0", "")),
    "a failed text is put aside at once": ("refused_a_while+aside", 2, "ASIDE_EARLY",
        ("effects.c", "times >= chosen.tries;", "times > 0;")),
    "a failed text is never put aside": ("refused+aside", 1, "NOT_ASIDE",
        ("effects.c", "times >= chosen.tries;", "times > 1000 + chosen.tries;")),
    "a session is forgotten before the next one has begun": ("tickets+killed+carrier", 3, "STANDS", ("outbox.c", """\
- 1 AND NOT EXISTS"
                      " (SELECT 1 FROM opened AS near JOIN frame ON frame.session = near.name"
                      " WHERE near.stream = ?1 AND near.turn IN (opened.turn, opened.turn + 1)) LIMIT""", "LIMIT")),
    "a receiver idles for some minutes": ("lost", 1, "LATE", ("shard.c", "check_store(s)", """\
if (nanoseconds() > 30 * SECOND && nanoseconds() < 500 * SECOND) {
        s->rests = milliseconds() + WAIT;
        return 0;
    }
    check_store(s)""")),
    "a sender has no round each second": ("later", 1, "UNHEALTHY",
        ("sender.c", "earlier(next, (s->looked_at + SECOND) / MILLISECOND + 1)", "next")),
    # What is never deleted.
    "frames that are done stay": ("calm", 1, "KEPT",
        ("sender.c", "outbox_drop_done", "now.done == 0 && outbox_drop_done")),
    "sessions that have ended stay": ("calm+tickets", 2, "KEPT",
        ("sender.c", "outbox_forget_ended(&s->outbox, it->begun, &s->ended) != ANSWER_DONE",
         "(it->begun->turn == 0 && outbox_forget_ended(&s->outbox, it->begun, &s->ended) != 0)")),
    "receipts of sessions that have ended stay": ("calm+tickets", 2, "KEPT",
        ("sender.c", "ended.count;", "ended.count && s->carrier == NULL;")),
    "a probe never has the opening": ("tickets+keys", 1, "STANDS"),
    "pauses don't grow": ("silent", 1, "FLOOD"),
    "last in, first out": ("many+carrier", 1, "UNFAIR"),
    "a list that was cut off is waited for": ("cut", 5, "STANDS"),
    "an opening is taken on any history": ("forked+killed+tickets", 2, "OVERTAKEN"),
    "an opening is taken before the close before it": ("cut+killed+slow+tickets", 7, "OVERTAKEN"),
    "another session of a turn that was had begins": ("cut+killed+slow+tickets", 3, "OVERTAKEN"),
    "the window stays after a silence": ("silent+bursts", 2, "FLOOD"),
    "a refused frame isn't held": ("skewed", 3, "UNTRUE"),
    "the pause of asks doesn't grow": ("skewed", 1, "FLOOD"),
    "the first probe comes after 300 s": ("later", 1, "STANDS"),
    "the first repeat comes after 64 s": ("calm", 1, "LATE"),
    "one frame is under way at most": ("calm+bursts", 2, "LATE"),
    "a shard has no bound": ("many+silent", 1, "CROWDED"),
    "receipts have no pause between them": ("calm+bursts", 1, "CHATTER"),
    "all sessions are said to stand": ("calm", 1, "UNTRUE"),
    "all frames leave at once after one was asked for": ("skewed", 2, "FLOOD"),
}

# Those for which another rule makes up: which, and profiles of which the first five seeds break no rule.
MADE_UP = {
    "confirmed counts out of order": (
        "the receiver misses the frame and asks for it", ("lost+killed", "carrier+killed", "lost+tickets", "calm")),
    "a confirmation counts at any offset": (
        "the receiver misses the frame and asks for it", ("cut", "cut+lost+killed", "cut+deleted+lost", "cut+stopped")),
    "another list: goes on at what was carried": (
        "the receiver misses the frame and asks for it",
        ("deleted+stopped", "deleted+lost+killed+stopped", "cut+deleted", "cut+deleted+stopped")),
    "another list is read from where the last one was": (
        "the receiver misses the frame and asks for it",
        ("deleted", "deleted+tickets", "cut+deleted", "deleted+killed+purged"),
        ("shard_load.c", "s->reading.read.offset);\n    s->next", """\
s->reading.stored.list != list && end >= s->reading.stored.offset ? s->reading.stored.offset
                                                                                           : s->reading.read.offset);
    s->next""")),
    "an opening leaves before the session before is carried": (
        "a receiver takes it for one of a later turn, which has to come again",
        ("calm+tickets", "tickets+killed", "keys+tickets", "tickets+killed+carrier"),
        ("sender_turns.c", "!tickets_have(s->tickets) || sender_is_after(s, it)", "!tickets_have(s->tickets)")),
    "offsets aren't compared": (
        "rows are: each frame that is accepted changes one",
        ("carrier+killed+lost", "lost+stopped", "killed+slow", "bursts+stopped"),
        ("sqlite_store.c", "shard.incarnation = ?2 AND shard.offset = ?3", "?2 IS NOT NULL AND ?3 IS NOT NULL")),
    "the session before isn't compared": (
        "only receivers of its shard go on with it, and each moves the shard's offset, which is compared",
        ("lost+tickets", "keys+tickets", "cut+killed+slow+tickets", "copied+stopped+tickets"),
        ("shard.c", "note_changed(s, before)", "before->is_changed = before->is_changed")),
    "owed receipts are dropped where the carrier is away": (
        "the sender probes, and a repeat owes one", ("carrier", "carrier+killed", "bursts+carrier", "carrier+lost"),
        ("shard_receipts.c", "for (i = 0; i < some.count &&", """\
some.count = 0;
        for (i = 0; i < some.count &&""")),
    "sessions' turns are no reason to wake": (
        "a round comes each second", ("calm", "lost", "cut", "skewed"),
        ("sender.c", "earlier(turns_next_time(s), receipts_next_time(s))", "receipts_next_time(s)")),
    "numbers aren't compared beside the owner": (
        "the owner is", ("taken_over", "killed+taken_over", "outbox_unknown", "stopped+taken_over"),
        ("outbox.c", "AND next = ?3", "AND ?3 IS NOT NULL")),
}
