/* Seals a text as KRB-PRIV at one end of a session, and opens it at the other. */
#include <krbrelay.h>

#include <stdio.h>

/* The key of the session, of encryption type 17, comes from the exchange before it. */
static const uint8_t key[16] = "chicken teriyaki";
static const struct krbrelay_address alice = { KRBRELAY_IPV4, 4, { 10, 0, 0, 1 } };
static const struct krbrelay_address bob = { KRBRELAY_IPV4, 4, { 10, 0, 0, 255 } };

static int failed(const char *what, enum krbrelay_answer answer)
{
    fprintf(stderr, "%s: %d: %s\n", what, (int)answer, krbrelay_strerror(answer));
    return 1;
}

/* Seals the text as message 7, and answers the size of the frame, 0 where it failed. */
static size_t send_text(const char *text, size_t len, uint8_t *frame, size_t room)
{
    struct krbrelay_session session = { .mode = KRBRELAY_PRIV, .first = 7, .sender = alice };
    struct krbrelay_sealer sealer = KRBRELAY_INIT;
    size_t size = 0;
    enum krbrelay_answer answer = krbrelay_sealer_new(&sealer, 17, key, sizeof key, &session);
    if (answer == KRBRELAY_OK)
        answer = krbrelay_sealer_seal_now(&sealer, (const uint8_t *)text, len, frame, room, &size);
    krbrelay_sealer_free(&sealer);
    if (answer != KRBRELAY_OK)
        failed("seal", answer);
    return size;
}

/* Opens the frame as message `number`, and prints its text. */
static int receive_text(const uint8_t *frame, size_t len, uint64_t number)
{
    struct krbrelay_expect expect = { .mode = KRBRELAY_PRIV, .sender = alice, .receiver = bob,
                                      .require_time = 1, .skew = 300 };
    struct krbrelay_opener opener = KRBRELAY_INIT;
    struct krbrelay_moment now;
    uint8_t text[KRBRELAY_FRAME_SIZE(5)];
    size_t size = 0;
    enum krbrelay_answer answer = krbrelay_opener_new(&opener, 17, key, sizeof key, &expect);
    if (answer == KRBRELAY_OK)
        answer = krbrelay_now(&now);
    if (answer == KRBRELAY_OK)
        answer = krbrelay_opener_unseal(&opener, frame, len, number, &now, text, sizeof text, &size);
    krbrelay_opener_free(&opener);
    if (answer != KRBRELAY_OK)
        return failed("open", answer);
    printf("message %u: %.*s\n", (unsigned)number, (int)size, (const char *)text);
    return 0;
}

int main(void)
{
    uint8_t frame[KRBRELAY_FRAME_SIZE(5)];
    size_t len = send_text("hello", 5, frame, sizeof frame);
    if (len == 0 || receive_text(frame, len, 7) != 0)
        return 1;
    /* The same frame isn't message 8. */
    return receive_text(frame, len, 8) == 0;
}
