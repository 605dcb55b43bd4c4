/* The proved code of x86-64 is compiled for x86-64-v2, and a second time for x86-64-v3, where this file is
 * compiled with KRBRELAY_X86_64_V3. This file itself is compiled for any x86-64, and so asks before that
 * code runs: a handle is made, a message read, and a sender's end moved, on no other processor. */
#include "proved.h"

#if defined(__x86_64__) && defined(KRBRELAY_X86_64_V3)
#include <cpuid.h>

/* What __builtin_cpu_supports doesn't know in each compiler. */
static int has_the_rest(void)
{
    const unsigned of_basic = bit_F16C | bit_MOVBE, of_extended = bit_LZCNT;
    unsigned a, b, basic, extended, d;
    if (!__get_cpuid(1, &a, &b, &basic, &d) || !__get_cpuid(0x80000001, &a, &b, &extended, &d))
        return 0;
    return (basic & of_basic) == of_basic && (extended & of_extended) == of_extended;
}

/* As the compiler's library does, it asks once: the instruction is slow in a virtual machine. Threads that
 * ask at the same time find the same. */
static int has_the_rest_once(void)
{
    enum { UNKNOWN, LACKING, THERE };
    static int known = UNKNOWN;
    int found = __atomic_load_n(&known, __ATOMIC_RELAXED);
    if (found == UNKNOWN) {
        found = has_the_rest() ? THERE : LACKING;
        __atomic_store_n(&known, found, __ATOMIC_RELAXED);
    }
    return found == THERE;
}

/* The compiler's library knows the features of AVX only where the system saves their registers too. */
static int is_of_level(void)
{
    return __builtin_cpu_supports("avx") && __builtin_cpu_supports("avx2") &&
           __builtin_cpu_supports("bmi") && __builtin_cpu_supports("bmi2") &&
           __builtin_cpu_supports("fma") && has_the_rest_once();
}
#elif defined(__x86_64__)
static int is_of_level(void) { return 1; }
#endif

int krbrelay_is_supported(void)
{
#if defined(__x86_64__)
    __builtin_cpu_init();               /* for a caller that runs before the program's main */
    return __builtin_cpu_supports("ssse3") && __builtin_cpu_supports("sse4.1") &&
           __builtin_cpu_supports("sse4.2") && __builtin_cpu_supports("popcnt") && is_of_level();
#else
    return 1;
#endif
}

enum krbrelay_answer krbrelay_sealer_new(struct krbrelay_sealer *handle, int32_t etype,
                                         const uint8_t *key, size_t key_len,
                                         const struct krbrelay_session *session)
{
    if (!krbrelay_is_supported())
        return KRBRELAY_PROCESSOR;
    return krbrelay_proved_sealer_new(handle, etype, key, key_len, session);
}

enum krbrelay_answer krbrelay_opener_new(struct krbrelay_opener *handle, int32_t etype,
                                         const uint8_t *key, size_t key_len,
                                         const struct krbrelay_expect *expect)
{
    if (!krbrelay_is_supported())
        return KRBRELAY_PROCESSOR;
    return krbrelay_proved_opener_new(handle, etype, key, key_len, expect);
}

enum krbrelay_answer krbrelay_receiver_new(struct krbrelay_receiver *handle, int32_t etype,
                                           const uint8_t *key, size_t key_len,
                                           const struct krbrelay_expect *expect, uint64_t expected,
                                           uint32_t closed)
{
    if (!krbrelay_is_supported())
        return KRBRELAY_PROCESSOR;
    return krbrelay_proved_receiver_new(handle, etype, key, key_len, expect, expected, closed);
}

enum krbrelay_answer krbrelay_peer_new(struct krbrelay_peer *handle, int32_t etype,
                                       const uint8_t *key, size_t key_len,
                                       const struct krbrelay_session *session,
                                       const struct krbrelay_demand *demand)
{
    if (!krbrelay_is_supported())
        return KRBRELAY_PROCESSOR;
    return krbrelay_proved_peer_new(handle, etype, key, key_len, session, demand);
}

enum krbrelay_answer krbrelay_peer_resume(struct krbrelay_peer *handle, int32_t etype,
                                          const uint8_t *key, size_t key_len,
                                          const struct krbrelay_session *session,
                                          const struct krbrelay_demand *demand,
                                          const uint8_t state[KRBRELAY_PEER_STATE_SIZE])
{
    if (!krbrelay_is_supported())
        return KRBRELAY_PROCESSOR;
    return krbrelay_proved_peer_resume(handle, etype, key, key_len, session, demand, state);
}

enum krbrelay_answer krbrelay_message_header(const uint8_t *frame, size_t len,
                                             struct krbrelay_header *header)
{
    if (!krbrelay_is_supported())
        return KRBRELAY_PROCESSOR;
    return krbrelay_proved_message_header(frame, len, header);
}

enum krbrelay_answer krbrelay_history_add(uint8_t history[KRBRELAY_HISTORY_SIZE],
                                          const uint8_t *frame, size_t len)
{
    if (!krbrelay_is_supported())
        return KRBRELAY_PROCESSOR;
    return krbrelay_proved_history_add(history, frame, len);
}

enum krbrelay_answer krbrelay_sending_load(struct krbrelay_sending *sending, uint64_t next,
                                           uint64_t carried, uint64_t at, uint64_t done,
                                           uint64_t list, uint64_t now)
{
    if (!krbrelay_is_supported())
        return KRBRELAY_PROCESSOR;
    return krbrelay_proved_sending_load(sending, next, carried, at, done, list, now);
}

enum krbrelay_answer krbrelay_sending_sealed(struct krbrelay_sending *sending, uint64_t count)
{
    if (!krbrelay_is_supported())
        return KRBRELAY_PROCESSOR;
    return krbrelay_proved_sending_sealed(sending, count);
}

enum krbrelay_answer krbrelay_sending_confirmed(struct krbrelay_sending *sending, uint64_t number,
                                                uint64_t offset, uint64_t now, uint32_t *counts)
{
    if (!krbrelay_is_supported())
        return KRBRELAY_PROCESSOR;
    return krbrelay_proved_sending_confirmed(sending, number, offset, now, counts);
}

enum krbrelay_answer krbrelay_sending_listed(struct krbrelay_sending *sending, uint64_t list,
                                             uint32_t *other)
{
    if (!krbrelay_is_supported())
        return KRBRELAY_PROCESSOR;
    return krbrelay_proved_sending_listed(sending, list, other);
}

enum krbrelay_answer krbrelay_sending_reconnected(struct krbrelay_sending *sending)
{
    if (!krbrelay_is_supported())
        return KRBRELAY_PROCESSOR;
    return krbrelay_proved_sending_reconnected(sending);
}

enum krbrelay_answer krbrelay_sending_receipt(struct krbrelay_sending *sending,
                                              const struct krbrelay_receipt *receipt,
                                              const uint8_t own[KRBRELAY_HISTORY_SIZE],
                                              uint64_t now, uint32_t *heard)
{
    if (!krbrelay_is_supported())
        return KRBRELAY_PROCESSOR;
    return krbrelay_proved_sending_receipt(sending, receipt, own, now, heard);
}

enum krbrelay_answer krbrelay_sending_serve(struct krbrelay_sending *sending, uint64_t room,
                                            uint64_t now, struct krbrelay_command *command)
{
    if (!krbrelay_is_supported())
        return KRBRELAY_PROCESSOR;
    return krbrelay_proved_sending_serve(sending, room, now, command);
}

enum krbrelay_answer krbrelay_sending_state(const struct krbrelay_sending *sending,
                                            uint64_t *under_way, uint64_t *room, uint32_t *settled,
                                            uint32_t *stands)
{
    if (!krbrelay_is_supported())
        return KRBRELAY_PROCESSOR;
    return krbrelay_proved_sending_state(sending, under_way, room, settled, stands);
}

enum krbrelay_answer krbrelay_lane_add(struct krbrelay_lane *handle,
                                       const struct krbrelay_stored *row, uint32_t opens,
                                       uint32_t *place)
{
    if (!krbrelay_is_supported())
        return KRBRELAY_PROCESSOR;
    return krbrelay_proved_lane_add(handle, row, opens, place);
}

enum krbrelay_answer krbrelay_lane_listed(struct krbrelay_lane *handle, uint32_t has_list,
                                          uint64_t list)
{
    if (!krbrelay_is_supported())
        return KRBRELAY_PROCESSOR;
    return krbrelay_proved_lane_listed(handle, has_list, list);
}

enum krbrelay_answer krbrelay_shard_new(struct krbrelay_shard *handle, uint32_t are_outside,
                                        uint32_t put_aside)
{
    if (!krbrelay_is_supported())
        return KRBRELAY_PROCESSOR;
    return krbrelay_proved_shard_new(handle, are_outside, put_aside);
}

enum krbrelay_answer krbrelay_judge(const struct krbrelay_head *head,
                                    const struct krbrelay_opening *opening, uint32_t *judged)
{
    if (!krbrelay_is_supported())
        return KRBRELAY_PROCESSOR;
    return krbrelay_proved_judge(head, opening, judged);
}
