/* A plant for library.c, by the linker's --wrap: where a receiver takes eight frames or more in one call, it
 * branches on a byte of its key. The part `refuse` has to show it. */
#include "krbrelay.h"

enum krbrelay_answer __real_krbrelay_receiver_new(struct krbrelay_receiver *handle, int32_t etype,
                                                  const uint8_t *key, size_t key_len,
                                                  const struct krbrelay_expect *expect, uint64_t expected,
                                                  uint32_t closed);
enum krbrelay_answer __wrap_krbrelay_receiver_new(struct krbrelay_receiver *handle, int32_t etype,
                                                  const uint8_t *key, size_t key_len,
                                                  const struct krbrelay_expect *expect, uint64_t expected,
                                                  uint32_t closed);
enum krbrelay_answer __real_krbrelay_receiver_take_many(struct krbrelay_receiver *handle,
                                                        const struct krbrelay_frame *frames, size_t count,
                                                        const struct krbrelay_moment *at, uint8_t *bytes,
                                                        size_t room, struct krbrelay_taken *taken);
enum krbrelay_answer __wrap_krbrelay_receiver_take_many(struct krbrelay_receiver *handle,
                                                        const struct krbrelay_frame *frames, size_t count,
                                                        const struct krbrelay_moment *at, uint8_t *bytes,
                                                        size_t room, struct krbrelay_taken *taken);

static const uint8_t *secret;
static volatile unsigned count_of_branches;

enum krbrelay_answer __wrap_krbrelay_receiver_new(struct krbrelay_receiver *handle, int32_t etype,
                                                  const uint8_t *key, size_t key_len,
                                                  const struct krbrelay_expect *expect, uint64_t expected,
                                                  uint32_t closed)
{
    secret = key;
    return __real_krbrelay_receiver_new(handle, etype, key, key_len, expect, expected, closed);
}

enum krbrelay_answer __wrap_krbrelay_receiver_take_many(struct krbrelay_receiver *handle,
                                                        const struct krbrelay_frame *frames, size_t count,
                                                        const struct krbrelay_moment *at, uint8_t *bytes,
                                                        size_t room, struct krbrelay_taken *taken)
{
    if (count >= 8 && secret[0] == 3)
        count_of_branches++;
    return __real_krbrelay_receiver_take_many(handle, frames, count, at, bytes, room, taken);
}
