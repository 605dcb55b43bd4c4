/* Takes each message once, in any order, as a transport such as UDP brings them. */
#include <krbrelay.h>

#include <stdio.h>

/* The key of the session, of encryption type 17, comes from the exchange before it. */
static const uint8_t key[16] = "chicken teriyaki";
static const struct krbrelay_address alice = { KRBRELAY_IPV4, 4, { 10, 0, 0, 1 } };

/* What was received: a frame and when, and where its text goes. */
struct arrival {
    const uint8_t *frame;
    size_t len;
    struct krbrelay_moment now;
    uint8_t *text;
    size_t room, size;
};

/* Opens a message from Alice that wasn't taken before. A message without a number has the number 0, so
 * it is taken once: of a sender that writes no numbers, only one message is taken. */
static enum krbrelay_answer take_once(struct krbrelay_opener *opener, struct krbrelay_window *window,
                                      struct arrival *it)
{
    struct krbrelay_demand demand = { .how_sender = KRBRELAY_REQUIRED, .sender = alice };
    struct krbrelay_carried carried = KRBRELAY_INIT;
    enum krbrelay_answer answer = krbrelay_opener_open(opener, it->frame, it->len, &demand, &it->now,
                                                       it->text, it->room, &it->size, &carried);
    if (answer == KRBRELAY_OK)
        answer = krbrelay_window_take(window, carried.number);
    return answer;
}

enum { COUNT = 3, ROOM = KRBRELAY_FRAME_SIZE(5) };

struct message { uint8_t frame[ROOM]; size_t len; };

/* Seals the texts as messages 7 and on, and answers how many it sealed. */
static int send_texts(const char *const *texts, struct message *messages)
{
    struct krbrelay_session session = { .mode = KRBRELAY_PRIV, .first = 7, .sender = alice };
    struct krbrelay_sealer sealer = KRBRELAY_INIT;
    int sealed = 0;
    if (krbrelay_sealer_new(&sealer, 17, key, sizeof key, &session) == KRBRELAY_OK)
        while (sealed < COUNT
               && krbrelay_sealer_seal_now(&sealer, (const uint8_t *)texts[sealed], 5,
                                           messages[sealed].frame, ROOM, &messages[sealed].len)
                   == KRBRELAY_OK)
            sealed++;
    krbrelay_sealer_free(&sealer);
    return sealed;
}

/* Takes the messages in this order, and answers how many were refused. */
static int receive_texts(const struct message *messages, const int *order, int count)
{
    struct krbrelay_expect expect = { .mode = KRBRELAY_PRIV };
    struct krbrelay_opener opener = KRBRELAY_INIT;
    struct krbrelay_window window = KRBRELAY_INIT;
    int refused = 0;
    if (krbrelay_opener_new(&opener, 17, key, sizeof key, &expect) != KRBRELAY_OK)
        return count;
    for (int i = 0; i < count; i++) {
        uint8_t text[ROOM];
        struct arrival it = { .frame = messages[order[i]].frame, .len = messages[order[i]].len,
                              .text = text, .room = sizeof text };
        enum krbrelay_answer answer = krbrelay_now(&it.now);
        if (answer == KRBRELAY_OK)
            answer = take_once(&opener, &window, &it);
        if (answer == KRBRELAY_OK)
            printf("taken: %.*s\n", (int)it.size, (const char *)text);
        else
            printf("refused: %s\n", krbrelay_strerror(answer));
        refused += answer != KRBRELAY_OK;
    }
    krbrelay_opener_free(&opener);
    return refused;
}

int main(void)
{
    static const char *const texts[COUNT] = { "first", "later", "third" };
    static const int order[] = { 2, 0, 2, 1 };
    static struct message messages[COUNT];
    if (send_texts(texts, messages) != COUNT)
        return 1;
    return receive_texts(messages, order, 4) != 1;
}
