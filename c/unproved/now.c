/* The system's clock and randomness, and sealing with both. */
#define _GNU_SOURCE
#include "../krbrelay.h"

#include <errno.h>
#include <string.h>
#include <sys/random.h>
#include <time.h>

/* 9999-12-31T23:59:59Z, the last second that a message can tell. */
#define LAST_SECOND 253402300799

enum krbrelay_answer krbrelay_now(struct krbrelay_moment *now)
{
    struct timespec clock;
    if (clock_gettime(CLOCK_REALTIME, &clock) != 0 || clock.tv_sec < 0 ||
        (int64_t)clock.tv_sec > LAST_SECOND)
        return KRBRELAY_CLOCK;
    now->seconds = (uint64_t)clock.tv_sec;
    now->microseconds = (uint32_t)(clock.tv_nsec / 1000);
    now->reserved = 0;
    return KRBRELAY_OK;
}

/* Fills the bytes by getrandom alone. A signal may interrupt it, or leave it short. */
static enum krbrelay_answer draw(uint8_t *bytes, size_t len)
{
    while (len > 0) {
        ssize_t got = getrandom(bytes, len, 0);
        if (got > 0) {
            bytes += got;
            len -= (size_t)got;
        } else if (got == 0 || errno != EINTR) {
            return KRBRELAY_RANDOM;
        }
    }
    return KRBRELAY_OK;
}

/* What a message takes from the system. */
struct fresh {
    struct krbrelay_moment now;
    uint8_t confounder[16];
};

static enum krbrelay_answer read_system(struct fresh *fresh)
{
    enum krbrelay_answer answer = krbrelay_now(&fresh->now);
    return answer == KRBRELAY_OK ? draw(fresh->confounder, sizeof fresh->confounder) : answer;
}

enum krbrelay_answer krbrelay_sealer_seal_now(struct krbrelay_sealer *handle,
                                              const uint8_t *user_data, size_t len,
                                              uint8_t *frame, size_t room, size_t *size)
{
    struct fresh fresh;
    enum krbrelay_answer answer = read_system(&fresh);
    if (answer == KRBRELAY_OK)
        answer = krbrelay_sealer_seal(handle, user_data, len, &fresh.now, fresh.confounder, frame,
                                      room, size);
    explicit_bzero(&fresh, sizeof fresh);
    return answer;
}

enum krbrelay_answer krbrelay_sealer_seal_record_now(struct krbrelay_sealer *handle, uint32_t kind,
                                                     const uint8_t *bytes, size_t len,
                                                     uint8_t *frame, size_t room, size_t *size)
{
    struct fresh fresh;
    enum krbrelay_answer answer = read_system(&fresh);
    if (answer == KRBRELAY_OK)
        answer = krbrelay_sealer_seal_record(handle, kind, bytes, len, &fresh.now,
                                             fresh.confounder, frame, room, size);
    explicit_bzero(&fresh, sizeof fresh);
    return answer;
}

enum krbrelay_answer krbrelay_peer_seal_now(struct krbrelay_peer *handle, const uint8_t *user_data,
                                            size_t len, uint8_t *frame, size_t room, size_t *size)
{
    struct fresh fresh;
    enum krbrelay_answer answer = read_system(&fresh);
    if (answer == KRBRELAY_OK)
        answer = krbrelay_peer_seal(handle, user_data, len, &fresh.now, fresh.confounder, frame, room,
                                    size);
    explicit_bzero(&fresh, sizeof fresh);
    return answer;
}

/* What several messages are sealed from: their user data, the present moment, and drawn confounders. */
static enum krbrelay_answer read_many(struct krbrelay_unsealed all[KRBRELAY_MOST_MESSAGES],
                                      const struct krbrelay_unsealed *messages, size_t count)
{
    struct krbrelay_moment now;
    enum krbrelay_answer answer = count <= KRBRELAY_MOST_MESSAGES ? krbrelay_now(&now) : KRBRELAY_ARGUMENT;
    for (size_t i = 0; answer == KRBRELAY_OK && i < count; i++) {
        all[i].user_data = messages[i].user_data;
        all[i].user_data_len = messages[i].user_data_len;
        all[i].at = now;
        answer = draw(all[i].confounder, sizeof all[i].confounder);
    }
    return answer;
}

enum krbrelay_answer krbrelay_sealer_seal_many_now(struct krbrelay_sealer *handle,
                                                   const struct krbrelay_unsealed *messages, size_t count,
                                                   uint8_t *frames, size_t room,
                                                   size_t sizes[KRBRELAY_MOST_MESSAGES], size_t *failed)
{
    struct krbrelay_unsealed all[KRBRELAY_MOST_MESSAGES];
    enum krbrelay_answer answer = read_many(all, messages, count);
    if (answer == KRBRELAY_OK)
        answer = krbrelay_sealer_seal_many(handle, all, count, frames, room, sizes, failed);
    explicit_bzero(all, sizeof all);
    return answer;
}

enum krbrelay_answer krbrelay_peer_seal_many_now(struct krbrelay_peer *handle,
                                                 const struct krbrelay_unsealed *messages, size_t count,
                                                 uint8_t *frames, size_t room,
                                                 size_t sizes[KRBRELAY_MOST_MESSAGES], size_t *failed)
{
    struct krbrelay_unsealed all[KRBRELAY_MOST_MESSAGES];
    enum krbrelay_answer answer = read_many(all, messages, count);
    if (answer == KRBRELAY_OK)
        answer = krbrelay_peer_seal_many(handle, all, count, frames, room, sizes, failed);
    explicit_bzero(all, sizeof all);
    return answer;
}
