// krbrelay.h for this package, and calls that are made with others in one function of C.
#ifndef KRBRELAY_CALLS_H
#define KRBRELAY_CALLS_H

#ifdef KRBRELAY_INSIDE
#include "names.h"
#endif
#include <krbrelay.h>

// Go may run the next call of C on another stack: so the one that had a key is overwritten in the same
// function.
static inline enum krbrelay_answer new_sealer(struct krbrelay_sealer *handle, int32_t etype, const uint8_t *key,
                                              size_t len, const struct krbrelay_session *session)
{
    enum krbrelay_answer answer = krbrelay_sealer_new(handle, etype, key, len, session);
    krbrelay_clear_stack();
    return answer;
}

static inline enum krbrelay_answer new_opener(struct krbrelay_opener *handle, int32_t etype, const uint8_t *key,
                                              size_t len, const struct krbrelay_expect *expect)
{
    enum krbrelay_answer answer = krbrelay_opener_new(handle, etype, key, len, expect);
    krbrelay_clear_stack();
    return answer;
}

static inline enum krbrelay_answer new_receiver(struct krbrelay_receiver *handle, int32_t etype,
                                                const uint8_t *key, size_t len,
                                                const struct krbrelay_expect *expect, uint64_t expected,
                                                uint32_t closed)
{
    enum krbrelay_answer answer = krbrelay_receiver_new(handle, etype, key, len, expect, expected, closed);
    krbrelay_clear_stack();
    return answer;
}

static inline enum krbrelay_answer new_peer(struct krbrelay_peer *handle, int32_t etype, const uint8_t *key,
                                            size_t len, const struct krbrelay_session *session,
                                            const struct krbrelay_demand *demand, const uint8_t *state)
{
    enum krbrelay_answer answer = state == NULL
        ? krbrelay_peer_new(handle, etype, key, len, session, demand)
        : krbrelay_peer_resume(handle, etype, key, len, session, demand, state);
    krbrelay_clear_stack();
    return answer;
}

// By a sealer, or by a peer where that isn't NULL. Go may pass no array of pointers to C: so the user data of all
// messages stand one after the other.
static inline enum krbrelay_answer seal_many(struct krbrelay_sealer *sealer, struct krbrelay_peer *peer,
                                             const uint8_t *user_data, const size_t *lens,
                                             const struct krbrelay_moment *ats, const uint8_t *confounders,
                                             size_t count, uint8_t *frames, size_t room, size_t *sizes,
                                             size_t *failed)
{
    struct krbrelay_unsealed messages[KRBRELAY_MOST_MESSAGES];
    for (size_t i = 0; i < count && i < KRBRELAY_MOST_MESSAGES; i++) {
        messages[i].user_data = user_data;
        messages[i].user_data_len = lens[i];
        messages[i].at = ats[i];
        for (size_t k = 0; k < sizeof messages[i].confounder; k++)
            messages[i].confounder[k] = confounders[16 * i + k];
        user_data += lens[i];
    }
    return peer == NULL ? krbrelay_sealer_seal_many(sealer, messages, count, frames, room, sizes, failed)
                        : krbrelay_peer_seal_many(peer, messages, count, frames, room, sizes, failed);
}

// The frames stand one after the other, for the same reason.
static inline enum krbrelay_answer take_many(struct krbrelay_receiver *handle, const uint8_t *frames,
                                             const size_t *lens, size_t count, const struct krbrelay_moment *at,
                                             uint8_t *bytes, size_t room, struct krbrelay_taken *taken)
{
    struct krbrelay_frame all[KRBRELAY_MOST_FRAMES];
    for (size_t i = 0; i < count && i < KRBRELAY_MOST_FRAMES; i++) {
        all[i].bytes = frames;
        all[i].bytes_len = lens[i];
        frames += lens[i];
    }
    return krbrelay_receiver_take_many(handle, all, count, at, bytes, room, taken);
}

static inline void free_sealer(struct krbrelay_sealer *handle)
{
    krbrelay_sealer_free(handle);
    krbrelay_clear_stack();
}

static inline void free_opener(struct krbrelay_opener *handle)
{
    krbrelay_opener_free(handle);
    krbrelay_clear_stack();
}

static inline void free_receiver(struct krbrelay_receiver *handle)
{
    krbrelay_receiver_free(handle);
    krbrelay_clear_stack();
}

static inline void free_peer(struct krbrelay_peer *handle)
{
    krbrelay_peer_free(handle);
    krbrelay_clear_stack();
}

#endif
