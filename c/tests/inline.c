/* The inline functions of krbrelay.h beside a model of 64-bit numbers, at each boundary. It needs no
 * library, and no C library where HOSTED isn't defined: so it runs on 32 bits too, where lengths wrap. Its
 * status is the line of the first check that failed, modulo 256 and never 0, or 0. */
#include "krbrelay.h"

#ifdef HOSTED
#include <stdio.h>
#endif

static int failed_at;
#define HOLDS(fact) do { if (!(fact) && failed_at == 0) failed_at = __LINE__; } while (0)

enum { ROOM = 24, BEHIND = 16, FILL = 0x5a };

static uint8_t batch[ROOM + BEHIND];
static uint8_t text[ROOM];

static void fill(void)
{
    for (size_t i = 0; i < sizeof batch; i++)
        batch[i] = FILL;
    for (size_t i = 0; i < sizeof text; i++)
        text[i] = (uint8_t)i;
}

/* A text is added where it fits after the first `size` bytes, which have to be in the room. */
static void add(size_t room, size_t size, size_t len)
{
    size_t now = size;
    int fits = (uint64_t)size + 4 + len <= room;
    fill();
    HOLDS(krbrelay_batch_add(batch, room, &now, text, len) == (fits ? KRBRELAY_OK : KRBRELAY_ROOM));
    HOLDS(now == (fits ? size + 4 + len : size));
    for (size_t i = 0; i < sizeof batch; i++) {
        uint8_t wanted = FILL;
        if (fits && i >= size && i < size + 4)
            wanted = (uint8_t)(i == size + 3 ? len : 0);
        if (fits && i >= size + 4 && i < size + 4 + len)
            wanted = text[i - size - 4];
        HOLDS(batch[i] == wanted);
    }
}

static void add_at_each_boundary(void)
{
    static const size_t large[] = { 0xffffffffu, 0xfffffffeu, 0xfffffffcu, 0xfffffff8u, SIZE_MAX, SIZE_MAX - 3,
                                    SIZE_MAX - 4, SIZE_MAX / 2, SIZE_MAX / 2 + 1 };
    size_t now;
    for (size_t room = 0; room <= ROOM; room++)
        for (size_t size = 0; size <= ROOM + 8; size++)
            for (size_t len = 0; len <= ROOM; len += len < 3 ? 1 : 3)
                add(room, size, len);
    for (size_t i = 0; i < sizeof large / sizeof *large; i++) {
        now = 4;
        HOLDS(krbrelay_batch_add(batch, ROOM, &now, text, large[i]) == KRBRELAY_ROOM && now == 4);
        now = large[i];
        HOLDS(krbrelay_batch_add(batch, ROOM, &now, text, 1) == KRBRELAY_ROOM && now == large[i]);
        HOLDS(krbrelay_batch_add(batch, ROOM, &now, text, large[i]) == KRBRELAY_ROOM && now == large[i]);
    }
}

/* A text follows where its four bytes and as many as they say are there. */
static void next(size_t size, size_t from, uint32_t len)
{
    const uint8_t *found = text;
    size_t at = from, told = 99;
    uint64_t end = (uint64_t)from + 4 + len;
    enum krbrelay_answer wanted = from >= size ? KRBRELAY_EMPTY : end <= size ? KRBRELAY_OK : KRBRELAY_RECORD;
    fill();
    for (size_t i = 0; i < 4 && from + i < sizeof batch; i++)
        batch[from + i] = (uint8_t)(len >> (24 - 8 * i));
    HOLDS(krbrelay_batch_next(batch, size, &at, &found, &told) == wanted);
    HOLDS(at == (wanted == KRBRELAY_OK ? (size_t)end : from));
    HOLDS(told == (wanted == KRBRELAY_OK ? len : 99));
    HOLDS(found == (wanted == KRBRELAY_OK ? batch + from + 4 : text));
}

static void next_at_each_boundary(void)
{
    static const uint32_t large[] = { 0x100, 0x10000, 0x1000000, 0x7fffffff, 0x80000000, 0xfffffff0, 0xfffffff8,
                                      0xfffffffb, 0xfffffffc, 0xfffffffd, 0xfffffffe, 0xffffffff };
    for (size_t size = 0; size <= ROOM; size++)
        for (size_t from = 0; from <= ROOM + 4; from++) {
            for (uint32_t len = 0; len <= ROOM; len++)
                next(size, from, len);
            for (size_t i = 0; i < sizeof large / sizeof *large; i++)
                next(size, from, large[i]);
        }
}

/* A handle is empty where it holds none, whatever its address. */
static void emptiness(void)
{
    struct krbrelay_sealer s = KRBRELAY_INIT;
    struct krbrelay_opener o = KRBRELAY_INIT;
    struct krbrelay_receiver r = KRBRELAY_INIT;
    struct krbrelay_peer p = KRBRELAY_INIT;
    s.at = o.at = r.at = p.at = batch;
    HOLDS(krbrelay_sealer_is_empty(&s) && krbrelay_opener_is_empty(&o));
    HOLDS(krbrelay_receiver_is_empty(&r) && krbrelay_peer_is_empty(&p));
    s.count = o.count = r.count = p.count = 1;
    HOLDS(!krbrelay_sealer_is_empty(&s) && !krbrelay_opener_is_empty(&o));
    HOLDS(!krbrelay_receiver_is_empty(&r) && !krbrelay_peer_is_empty(&p));
}

static int status(void)
{
    add_at_each_boundary();
    next_at_each_boundary();
    emptiness();
    return failed_at == 0 ? 0 : failed_at % 256 == 0 ? 1 : failed_at % 256;
}

#ifdef HOSTED
int main(void)
{
    int answer = status();
    if (answer != 0)
        printf("inline.c:%d: not so\n", failed_at);
    printf("inline: on %zu bits, %s\n", 8 * sizeof(size_t), answer == 0 ? "all held" : "FAILED");
    return answer;
}
#else
/* The program without a C library, on 32 bits of x86: it ends by the system's call. */
void _start(void);

void _start(void)
{
    __asm__ volatile("int $0x80" : : "a"(1), "b"(status()));
    __builtin_unreachable();
}
#endif
