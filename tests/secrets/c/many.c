/* A plant for library.c, by the linker's --wrap: where a sealer seals eight messages or more in one call, it
 * branches on a byte of its key. The part `seal` has to show it. */
#include "krbrelay.h"

enum krbrelay_answer __real_krbrelay_sealer_new(struct krbrelay_sealer *handle, int32_t etype,
                                                const uint8_t *key, size_t key_len,
                                                const struct krbrelay_session *session);
enum krbrelay_answer __wrap_krbrelay_sealer_new(struct krbrelay_sealer *handle, int32_t etype,
                                                const uint8_t *key, size_t key_len,
                                                const struct krbrelay_session *session);
enum krbrelay_answer __real_krbrelay_sealer_seal_many(struct krbrelay_sealer *handle,
                                                      const struct krbrelay_unsealed *messages, size_t count,
                                                      uint8_t *frames, size_t room, size_t *sizes,
                                                      size_t *failed);
enum krbrelay_answer __wrap_krbrelay_sealer_seal_many(struct krbrelay_sealer *handle,
                                                      const struct krbrelay_unsealed *messages, size_t count,
                                                      uint8_t *frames, size_t room, size_t *sizes,
                                                      size_t *failed);

static const uint8_t *secret;
static volatile unsigned count_of_branches;

enum krbrelay_answer __wrap_krbrelay_sealer_new(struct krbrelay_sealer *handle, int32_t etype,
                                                const uint8_t *key, size_t key_len,
                                                const struct krbrelay_session *session)
{
    secret = key;
    return __real_krbrelay_sealer_new(handle, etype, key, key_len, session);
}

enum krbrelay_answer __wrap_krbrelay_sealer_seal_many(struct krbrelay_sealer *handle,
                                                      const struct krbrelay_unsealed *messages, size_t count,
                                                      uint8_t *frames, size_t room, size_t *sizes,
                                                      size_t *failed)
{
    if (count >= 8 && secret[0] == 3)
        count_of_branches++;
    return __real_krbrelay_sealer_seal_many(handle, messages, count, frames, room, sizes, failed);
}
