/* A plant for library.c, by the linker's --wrap: where a receiver takes a frame of over 512 bytes, it
 * branches on a byte of its key. The part `refuse` has to show it. */
#include "krbrelay.h"

enum krbrelay_answer __real_krbrelay_receiver_new(struct krbrelay_receiver *handle, int32_t etype,
                                                  const uint8_t *key, size_t key_len,
                                                  const struct krbrelay_expect *expect, uint64_t expected,
                                                  uint32_t closed);
enum krbrelay_answer __wrap_krbrelay_receiver_new(struct krbrelay_receiver *handle, int32_t etype,
                                                  const uint8_t *key, size_t key_len,
                                                  const struct krbrelay_expect *expect, uint64_t expected,
                                                  uint32_t closed);
enum krbrelay_answer __real_krbrelay_receiver_take(struct krbrelay_receiver *handle, const uint8_t *frame,
                                                   size_t len, const struct krbrelay_moment *at,
                                                   uint32_t *kind, uint8_t *out, size_t room, size_t *size);
enum krbrelay_answer __wrap_krbrelay_receiver_take(struct krbrelay_receiver *handle, const uint8_t *frame,
                                                   size_t len, const struct krbrelay_moment *at,
                                                   uint32_t *kind, uint8_t *out, size_t room, size_t *size);

static const uint8_t *secret;
static volatile unsigned count;

enum krbrelay_answer __wrap_krbrelay_receiver_new(struct krbrelay_receiver *handle, int32_t etype,
                                                  const uint8_t *key, size_t key_len,
                                                  const struct krbrelay_expect *expect, uint64_t expected,
                                                  uint32_t closed)
{
    secret = key;
    return __real_krbrelay_receiver_new(handle, etype, key, key_len, expect, expected, closed);
}

enum krbrelay_answer __wrap_krbrelay_receiver_take(struct krbrelay_receiver *handle, const uint8_t *frame,
                                                   size_t len, const struct krbrelay_moment *at,
                                                   uint32_t *kind, uint8_t *out, size_t room, size_t *size)
{
    if (len > 512 && secret[0] == 3)
        count++;
    return __real_krbrelay_receiver_take(handle, frame, len, at, kind, out, room, size);
}
