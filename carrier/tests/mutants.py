"""Mutants of carrier/, each with a planted bug that chaos, one case of test_repro.py and its like, or an opening that
isn't right has to find: its name, the file, the text that stands there once, and what takes its place."""
import shutil

import sources as places

# Which case, or chaos, has to find it, and what has to be said: that it fails for another reason isn't enough.
CASES = {
    "receipts ask for nothing": ("unstable_offsets", "delivered {'ann': 3} of {'ann': 10}"),
    "what is asked for doesn't leave": ("unstable_end", "delivered {'ann': 1} of {'ann': 10}"),
    "nothing is probed": ("session_later", "delivered {'ann': 100} of {'ann': 100, 'tom': 100}"),
    "frames go once they are carried": ("receipts_before_reading", "delivered {} of {'ann': 300}"),
    "receipts aren't sealed again": ("receipts_lost", "the outbox keeps 100 frames"),
    "receipts of other frames count": ("copied_with_receipts", "the copy keeps (0, 0) frames and texts"),
    "receipts from before aren't read": ("restored_and_receipted", "0 texts wait"),
    "later texts are taken first": ("texts_in_turn", "of {'ann': 3300}"),
}
CHAOS = {"no compare-and-set": ("", "doubled"), "deduplication on": ("", "not all is carried")}
EDITS = {
    "no compare-and-set": ("sqlite_store.c", "s->is_fenced |= sqlite3_changes(s->db) != 1;", "s->is_fenced = 0;"),
    "receipts ask for nothing": ("shard_receipts.c", ".asks = due->asks };", ".asks = KRBRELAY_ASKS_NOTHING };"),
    "what is asked for doesn't leave": ("sender_receipts.c", "said.asks = receipt.asks;",
                                        "said.asks = KRBRELAY_ASKS_NOTHING;"),
    "nothing is probed": ("sender_turns.c", "publish_frames(s, it, command->number, 1);\n", ""),
    "frames go once they are carried": ("sender.c", ".carried = end->progress.carried, .done = end->done,",
                                        ".carried = end->progress.carried, .done = end->progress.carried,"),
    "receipts of other frames count": ("sender_receipts.c",
                                       "return own->is_known ? KRBRELAY_OWN_KNOWN : KRBRELAY_OWN_UNKNOWN;",
                                       "return KRBRELAY_OWN_UNKNOWN;"),
    "receipts from before aren't read": ("sender.c", """\
    if (!s->has_heard)
        receipts_hear(s);
""", """\
    s->has_heard = 1;
"""),
    "later texts are taken first": ("intake.c", "if ((*it)->has_texts || is_left(*it, text))",
                                    "if (is_left(*it, text))"),
    "receipts aren't sealed again": ("shard_receipts.c", "if (place >= s->members.count)",
                                     "if (place >= s->members.count || due.asks == KRBRELAY_ASKS_NOTHING)"),
    "deduplication on": ("nats_publisher.c", """\
    status = natsConnection_PublishRequest(c->connection, subject, reply, frame, (int)len);
""", """\
    natsMsg *message = NULL;
    char id[64];
    snprintf(id, sizeof id, "%s-%llu", session, (unsigned long long)number);
    status = natsMsg_Create(&message, subject, reply, (const char *)frame, (int)len);
    if (status == NATS_OK)
        status = natsMsgHeader_Set(message, "Nats-Msg-Id", id);
    if (status == NATS_OK)
        status = natsConnection_PublishMsg(c->connection, message);
    natsMsg_Destroy(message);
"""),
}


# The same for openings that aren't right and cases of tickets.py.
TICKETS = {
    "the checksum of the text isn't compared": ("a checksum of another text", "opened: ["),
    "the name isn't compared with the key": ("a name that isn't the key's", "opened: ["),
    "each client is allowed": ("a client that isn't allowed", "opened: ["),
    "each shard takes an opening": ("another shard's", "opened: ["),
    "each shard goes on with a session": ("copied_elsewhere", "in another shard: "),
    "no session waits for the one before": ("before_its_turn", "delivered"),
    "a stream goes on without its key": ("keytab_moment", "delivered"),
}
TICKET_EDITS = {
    "the checksum of the text isn't compared": ("opening.c",
                                                "return code == 0 && is_valid ? OPENING_OK : OPENING_CHANGED;",
                                                "return code == 0 ? OPENING_OK : OPENING_CHANGED;"),
    "the name isn't compared with the key": ("opening.c", """\
    else if (strcmp(name, it->name) != 0)
        answer = OPENING_NAME;
""", ""),
    "each client is allowed": ("opening.c", "return is_found;", "return is_found || client != NULL;"),
    "each shard takes an opening": ("opening.c", """\
    if (it->says_shard && it->shard != shard)
        return OPENING_ELSEWHERE;
""", ""),
    "each shard goes on with a session": ("shard_open.c", "int is_here = it->shard == sought->shard->number;",
                                          "int is_here = it->shard < CARRIER_SHARDS;"),
    "a stream goes on without its key": ("sender_openings.c", """\
        stream->key = STREAM_UNREADABLE; /* so that no later text of it is taken before this one */
""", ""),
    "no session waits for the one before": ("shard.c", "&& shard_judge(s, of) != KRBRELAY_JUDGED_BEGINS;",
                                            "&& shard_judge(s, of) > KRBRELAY_JUDGED_FORKED;"),
}


def change(name, folder, edit):
    """Makes one change in a copy of the sources. The text has to stand there once."""
    path, old, new = edit
    path = places.place_of(path, folder)
    with open(path, encoding="utf-8") as file:
        text = file.read()
    if text.count(old) != 1:
        raise ValueError(f"{name}: the text to be changed stands {text.count(old)} times in {path}")
    with open(path, "w", encoding="utf-8") as file:
        file.write(text.replace(old, new))


def write(name, sources, folder):
    """Writes a copy of the sources with the bug."""
    shutil.copytree(sources, folder, ignore=shutil.ignore_patterns("out"))
    change(name, folder, (EDITS | TICKET_EDITS)[name])


def found(name, faults):
    """Those of these faults that say what has to be said of a mutant."""
    _, words = (CASES | CHAOS | TICKETS)[name]
    return [fault for fault in faults if words in fault]
