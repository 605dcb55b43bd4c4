/* What answers say, and what a caller does about them. The proved code names its own answers, into
 * the caller's buffer; here are those that it never gives, and the texts of all as constants. */
#include "proved.h"

#include <string.h>

struct named { const char *name, *text; };

/* The answers of the C beside the proved code. */
static const struct named system_answers[] = {
    /* of tables/answers.toml: system */
    [KRBRELAY_CLOCK - KRBRELAY_CLOCK] =
        { "CLOCK", "the clock can't be read, or isn't in the years 1970 to 9999" },
    [KRBRELAY_RANDOM - KRBRELAY_CLOCK] = { "RANDOM", "the system has no random bytes" },
    [KRBRELAY_PROCESSOR - KRBRELAY_CLOCK] =
        { "PROCESSOR", "the processor lacks instructions of the library" },
    /* end of system */
};

static int is_of_system(uint32_t answer)
{
    return answer >= KRBRELAY_CLOCK && answer <= KRBRELAY_PROCESSOR;
}

/* Writes a text and a zero. */
static enum krbrelay_answer put(const char *text, char *to, size_t room, size_t *size)
{
    size_t len = strlen(text);
    if (room <= len)
        return KRBRELAY_ROOM;
    memcpy(to, text, len + 1);
    *size = len;
    return KRBRELAY_OK;
}

enum krbrelay_answer krbrelay_answer_name(uint32_t answer, char *name, size_t room, size_t *size)
{
    if (is_of_system(answer))
        return put(system_answers[answer - KRBRELAY_CLOCK].name, name, room, size);
    return krbrelay_proved_answer_name(answer, name, room, size);
}

enum krbrelay_answer krbrelay_answer_text(uint32_t answer, char *text, size_t room, size_t *size)
{
    if (is_of_system(answer))
        return put(system_answers[answer - KRBRELAY_CLOCK].text, text, room, size);
    return krbrelay_proved_answer_text(answer, text, room, size);
}

const char *krbrelay_strerror(uint32_t answer)
{
    switch ((enum krbrelay_answer)answer) {
    /* of tables/answers.toml: texts */
    case KRBRELAY_OK: return "done";
    case KRBRELAY_WIPED: return "the keys were overwritten";
    case KRBRELAY_TOO_LONG: return "the user data are longer than a message may carry";
    case KRBRELAY_EXHAUSTED: return "no sequence number is left";
    case KRBRELAY_ETYPE_NOSUPP: return "the encryption type isn't the expected one";
    case KRBRELAY_BAD_INTEGRITY: return "the encrypted part is too short, or its integrity check fails";
    case KRBRELAY_SKEW: return "the time is off by more than the skew, or is missing";
    case KRBRELAY_BADADDR: return "an address isn't the expected one, or is missing";
    case KRBRELAY_BADVERSION: return "the protocol version isn't 5";
    case KRBRELAY_MSG_TYPE: return "the message isn't of the expected kind, KRB-SAFE or KRB-PRIV";
    case KRBRELAY_MODIFIED: return "the checksum differs";
    case KRBRELAY_BADORDER: return "the sequence number isn't the expected one";
    case KRBRELAY_INAPP_CKSUM: return "the checksum's type isn't the expected one";
    case KRBRELAY_FIELD_TOOLONG: return "the message is longer than a message may be";
    case KRBRELAY_MALFORMED: return "not a DER-encoded KRB-SAFE or KRB-PRIV message";
    case KRBRELAY_BAD_RECORD: return "the user data aren't a record";
    case KRBRELAY_AFTER_CLOSE: return "a close was accepted before";
    case KRBRELAY_MEMORY: return "out of memory";
    case KRBRELAY_ETYPE: return "the encryption type is neither 17 nor 18";
    case KRBRELAY_ROOM: return "a buffer is too small";
    case KRBRELAY_EMPTY: return "the handle holds nothing";
    case KRBRELAY_KEY_SIZE: return "the key hasn't the size of its encryption type";
    case KRBRELAY_MODE: return "the mode is neither KRB-SAFE nor KRB-PRIV";
    case KRBRELAY_MOMENT: return "the time is outside the years 1970 to 9999";
    case KRBRELAY_ADDRESS: return "an address has over 40 bytes";
    case KRBRELAY_ARGUMENT: return "an argument is out of its range";
    case KRBRELAY_RECORD: return "the texts don't fit in a record";
    case KRBRELAY_REPEATED: return "the number was taken before";
    case KRBRELAY_TOO_OLD: return "the number is too far below the highest that was taken";
    /* end of texts */
    case KRBRELAY_CLOCK:
    case KRBRELAY_RANDOM:
    case KRBRELAY_PROCESSOR: return system_answers[answer - KRBRELAY_CLOCK].text;
    }
    return "no answer of this library";
}

const char *krbrelay_field_name(uint32_t field)
{
    switch ((enum krbrelay_field)field) {
    /* of tables/fields.toml: names */
    case KRBRELAY_FIELD_MODE: return "mode";
    case KRBRELAY_FIELD_SENDER: return "sender";
    case KRBRELAY_FIELD_RECEIVER: return "receiver";
    case KRBRELAY_FIELD_RESERVED: return "reserved";
    case KRBRELAY_FIELD_HOW_SENDER: return "how_sender";
    case KRBRELAY_FIELD_HOW_RECEIVER: return "how_receiver";
    case KRBRELAY_FIELD_HOW_TIME: return "how_time";
    case KRBRELAY_FIELD_HOW_NUMBER: return "how_number";
    case KRBRELAY_FIELD_NUMBER: return "number";
    case KRBRELAY_FIELD_SKEW: return "skew";
    case KRBRELAY_FIELD_NEEDS_TIME_OR_NUMBER: return "needs_time_or_number";
    /* end of names */
    case KRBRELAY_FIELD_NONE: break;
    }
    return "none";
}

enum krbrelay_class krbrelay_class_of(uint32_t answer)
{
    switch ((enum krbrelay_answer)answer) {
    case KRBRELAY_OK:
        return KRBRELAY_CLASS_OK;
    /* of tables/answers.toml: classes */
    case KRBRELAY_ETYPE_NOSUPP:
    case KRBRELAY_BAD_INTEGRITY:
    case KRBRELAY_SKEW:
    case KRBRELAY_BADADDR:
    case KRBRELAY_BADVERSION:
    case KRBRELAY_MSG_TYPE:
    case KRBRELAY_MODIFIED:
    case KRBRELAY_BADORDER:
    case KRBRELAY_INAPP_CKSUM:
    case KRBRELAY_FIELD_TOOLONG:
    case KRBRELAY_MALFORMED:
    case KRBRELAY_BAD_RECORD:
    case KRBRELAY_AFTER_CLOSE:
    case KRBRELAY_REPEATED:
    case KRBRELAY_TOO_OLD:
        return KRBRELAY_CLASS_REFUSAL;
    case KRBRELAY_TOO_LONG:
    case KRBRELAY_ETYPE:
    case KRBRELAY_ROOM:
    case KRBRELAY_KEY_SIZE:
    case KRBRELAY_MODE:
    case KRBRELAY_MOMENT:
    case KRBRELAY_ADDRESS:
    case KRBRELAY_ARGUMENT:
    case KRBRELAY_RECORD:
        return KRBRELAY_CLASS_CALLER;
    case KRBRELAY_WIPED:
    case KRBRELAY_EXHAUSTED:
    case KRBRELAY_EMPTY:
        return KRBRELAY_CLASS_STATE;
    case KRBRELAY_MEMORY:
        return KRBRELAY_CLASS_MEMORY;
    case KRBRELAY_CLOCK:
    case KRBRELAY_RANDOM:
    case KRBRELAY_PROCESSOR:
        return KRBRELAY_CLASS_SYSTEM;
    /* end of classes */
    }
    return KRBRELAY_CLASS_UNKNOWN;
}

int krbrelay_is_refusal(uint32_t answer)
{
    return krbrelay_class_of(answer) == KRBRELAY_CLASS_REFUSAL;
}
