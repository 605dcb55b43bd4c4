#include "history.h"
#include "log.h"
#include "text.h"

int history_add(struct history *history, const uint8_t *frame, size_t len)
{
    enum krbrelay_answer answer = history->is_known
                                      ? krbrelay_history_add(history->bytes, frame, len) : KRBRELAY_OK;
    if (answer == KRBRELAY_OK)
        return 0;
    log_fact(LEVEL_ERROR, "history_unmade", field_number("answer", (uint64_t)answer));
    return -1;
}

void history_write(const struct history *history, char text[HISTORY_TEXT])
{
    text[0] = 0;
    if (history->is_known)
        write_hex(history->bytes, sizeof history->bytes, text);
}

void history_read(struct history *history, const char *text)
{
    size_t len = 0;
    history->is_known = text != NULL && read_hex(text, history->bytes, sizeof history->bytes, &len)
                        && len == sizeof history->bytes;
}
