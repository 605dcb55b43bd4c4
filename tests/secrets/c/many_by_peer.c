/* A plant for library.c, by the linker's --wrap: where a peer seals eight messages or more in one call, it
 * branches on a byte of its key. The part `seal` has to show it. */
#include "krbrelay.h"

enum krbrelay_answer __real_krbrelay_peer_resume(struct krbrelay_peer *handle, int32_t etype,
                                                 const uint8_t *key, size_t key_len,
                                                 const struct krbrelay_session *session,
                                                 const struct krbrelay_demand *demand, const uint8_t *state);
enum krbrelay_answer __wrap_krbrelay_peer_resume(struct krbrelay_peer *handle, int32_t etype,
                                                 const uint8_t *key, size_t key_len,
                                                 const struct krbrelay_session *session,
                                                 const struct krbrelay_demand *demand, const uint8_t *state);
enum krbrelay_answer __real_krbrelay_peer_seal_many(struct krbrelay_peer *handle,
                                                    const struct krbrelay_unsealed *messages, size_t count,
                                                    uint8_t *frames, size_t room, size_t *sizes, size_t *failed);
enum krbrelay_answer __wrap_krbrelay_peer_seal_many(struct krbrelay_peer *handle,
                                                    const struct krbrelay_unsealed *messages, size_t count,
                                                    uint8_t *frames, size_t room, size_t *sizes, size_t *failed);

static const uint8_t *secret;
static volatile unsigned count_of_branches;

enum krbrelay_answer __wrap_krbrelay_peer_resume(struct krbrelay_peer *handle, int32_t etype,
                                                 const uint8_t *key, size_t key_len,
                                                 const struct krbrelay_session *session,
                                                 const struct krbrelay_demand *demand, const uint8_t *state)
{
    secret = key;
    return __real_krbrelay_peer_resume(handle, etype, key, key_len, session, demand, state);
}

enum krbrelay_answer __wrap_krbrelay_peer_seal_many(struct krbrelay_peer *handle,
                                                    const struct krbrelay_unsealed *messages, size_t count,
                                                    uint8_t *frames, size_t room, size_t *sizes, size_t *failed)
{
    if (count >= 8 && secret[0] == 3)
        count_of_branches++;
    return __real_krbrelay_peer_seal_many(handle, messages, count, frames, room, sizes, failed);
}
