/* Windows beside a model, which remembers each number that was taken: whatever numbers are offered,
 * a number is taken once, and only if it is less than 64 below the highest that was. */
#include "check.h"
#include "krbrelay.h"

#include <string.h>

enum { SIZE = 64, SPAN = 100000, OFFERS = 400000 };

static uint64_t state = 88172645463325252u;

/* A generator of 64 bits (Marsaglia, Xorshift RNGs, 2003). */
static uint64_t draw(uint64_t below)
{
    state ^= state << 13;
    state ^= state >> 7;
    state ^= state << 17;
    return (state >> 11) % below;
}

/* The numbers from base on that were taken, and the highest. */
static struct { uint64_t base, highest; int some; uint8_t taken[SPAN]; } model;

static void begin_model(uint64_t base)
{
    memset(&model, 0, sizeof model);
    model.base = base;
}

static enum krbrelay_answer model_take(uint64_t number)
{
    if (model.some && model.highest >= SIZE && number <= model.highest - SIZE)
        return KRBRELAY_TOO_OLD;
    if (model.taken[number - model.base])
        return KRBRELAY_REPEATED;
    model.taken[number - model.base] = 1;
    if (!model.some || number > model.highest)
        model.highest = number;
    model.some = 1;
    return KRBRELAY_OK;
}

/* Numbers about the highest, and at times a jump. */
static uint64_t next_number(uint64_t last)
{
    uint64_t far = draw(50) == 0 ? 200 : 70;
    uint64_t back = draw(far), low = model.highest > back ? model.highest - back : 0;
    uint64_t number = draw(3) == 0 ? model.highest + 1 + draw(draw(40) == 0 ? 150 : 3) : low;
    if (number < model.base)
        number = model.base;
    return number > last ? last : number;
}

/* A window of zeros, or of a first number, answers as the model. */
static void beside_the_model(struct krbrelay_window *window, uint64_t base)
{
    static int seen[3];
    uint64_t last = base > UINT64_MAX - (SPAN - 1) ? UINT64_MAX : base + SPAN - 1;
    begin_model(base);
    for (int i = 0; i < OFFERS; i++) {
        uint64_t number = model.some ? next_number(last) : base + draw(3);
        struct krbrelay_window before = *window;
        enum krbrelay_answer expected = model_take(number);
        enum krbrelay_answer answer = krbrelay_window_take(window, number);
        CHECK(answer == expected);
        CHECK(answer == KRBRELAY_OK || memcmp(window, &before, sizeof before) == 0);
        seen[answer == KRBRELAY_OK ? 0 : answer == KRBRELAY_REPEATED ? 1 : 2]++;
    }
    CHECK(seen[0] > 1000 && seen[1] > 1000 && seen[2] > 1000);
}

/* Below its first number a window takes none: the last 64 count as taken, and others are too old. */
static void first_numbers(void)
{
    static const uint64_t firsts[] = { 0, 1, 63, 64, 65, 1000, 1u << 31, UINT64_MAX - 1, UINT64_MAX };
    for (size_t i = 0; i < sizeof firsts / sizeof firsts[0]; i++) {
        struct krbrelay_window window;
        uint64_t first = firsts[i];
        memset(&window, 0xee, sizeof window);
        krbrelay_window_new(&window, first);
        for (uint64_t below = 1; below <= first && below < 200; below++)
            CHECK(krbrelay_window_take(&window, first - below)
                  == (below <= SIZE ? KRBRELAY_REPEATED : KRBRELAY_TOO_OLD));
        CHECK(krbrelay_window_take(&window, first) == KRBRELAY_OK);
        CHECK(krbrelay_window_take(&window, first) == KRBRELAY_REPEATED);
    }
}

/* The last number there is. */
static void the_last_number(void)
{
    struct krbrelay_window window = KRBRELAY_INIT;
    CHECK(krbrelay_window_take(&window, UINT64_MAX) == KRBRELAY_OK);
    CHECK(krbrelay_window_take(&window, UINT64_MAX) == KRBRELAY_REPEATED);
    CHECK(krbrelay_window_take(&window, UINT64_MAX - SIZE) == KRBRELAY_TOO_OLD);
    CHECK(krbrelay_window_take(&window, UINT64_MAX - SIZE + 1) == KRBRELAY_OK);
    CHECK(krbrelay_window_take(&window, 0) == KRBRELAY_TOO_OLD);
    CHECK(window.highest == UINT64_MAX);
}

int main(int count, char **words)
{
    static const uint64_t bases[] = { 0, 1, 7, 4294967290u, UINT64_MAX - SPAN + 1 };
    check_only(1, count, words);
    for (size_t i = 0; i < sizeof bases / sizeof bases[0]; i++) {
        struct krbrelay_window window = KRBRELAY_INIT;
        if (bases[i] != 0)
            krbrelay_window_new(&window, bases[i]);
        RUN(beside_the_model(&window, bases[i]));
    }
    RUN(first_numbers());
    RUN(the_last_number());
    return check_status("window");
}
