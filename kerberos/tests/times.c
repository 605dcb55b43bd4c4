/* The calls of kerberos beside MIT's, in microseconds, on one thread and in turns in one
 * process: times [SECONDS for each row, 0.5 where none are named]. It prints the best batch by the
 * thread's processor time. */
#define _GNU_SOURCE
#include "both.h"

#include <time.h>

enum { BATCH = 16, LONGEST = 60000 };
enum side { OURS, MITS, SIDES };

static const uint8_t key[32] = "a session key of thirty-two byte";
static char text[LONGEST];
static krb5_context ctx;
static krb5_data frames[BATCH], texts[BATCH];

/* The ends of a session whose messages one side makes and reads. */
struct ends { krb5_auth_context sender, receiver; double made, read; };

static double clock_at(clockid_t clock)
{
    struct timespec t;
    must(clock_gettime(clock, &t), "clock");
    return (double)t.tv_sec + (double)t.tv_nsec * 1e-9;
}

static message_call *call_of(enum side side, enum call call)
{
    return side == OURS ? ours[call] : mit[call];
}

static void least(double *so_far, double begun)
{
    double taken = (clock_at(CLOCK_THREAD_CPUTIME_ID) - begun) / BATCH * 1e6;
    if (*so_far == 0 || taken < *so_far)
        *so_far = taken;
}

/* A batch of messages of one side, made and read. */
static void turn(struct ends *e, enum side side, enum call make, unsigned size)
{
    krb5_data in = { KV5M_DATA, size, text };
    krb5_replay_data replay;
    double begun = clock_at(CLOCK_THREAD_CPUTIME_ID);
    int i;
    for (i = 0; i < BATCH; i++)
        must(call_of(side, make)(ctx, e->sender, &in, &frames[i], &replay), "made");
    least(&e->made, begun);
    begun = clock_at(CLOCK_THREAD_CPUTIME_ID);
    for (i = 0; i < BATCH; i++)
        must(call_of(side, make + 1)(ctx, e->receiver, &frames[i], &texts[i], &replay), "read");
    least(&e->read, begun);
    for (i = 0; i < BATCH; i++) {
        must(texts[i].length != size, "the text");
        krb5_free_data_contents(ctx, &frames[i]);
        krb5_free_data_contents(ctx, &texts[i]);
    }
}

static void row(enum call make, int etype, unsigned size, double seconds)
{
    struct ends ends[SIDES];
    double end = clock_at(CLOCK_MONOTONIC) + seconds;
    enum side side;
    for (side = OURS; side < SIDES; side++) {
        ends[side].sender = end_of(ctx, etype, key, 1, 255);
        ends[side].receiver = end_of(ctx, etype, key, 255, 1);
        ends[side].made = ends[side].read = 0;
    }
    while (clock_at(CLOCK_MONOTONIC) < end)
        for (side = OURS; side < SIDES; side++)
            turn(&ends[side], side, make, size);
    printf("| KRB-%s | %d | %u | %.2f | %.2f | %.2f | %.2f | %.2f | %.2f |\n",
           make == MK_SAFE ? "SAFE" : "PRIV", etype, size, ends[OURS].made, ends[MITS].made,
           ends[MITS].made / ends[OURS].made, ends[OURS].read, ends[MITS].read,
           ends[MITS].read / ends[OURS].read);
    fflush(stdout);
    for (side = OURS; side < SIDES; side++) {
        krb5_auth_con_free(ctx, ends[side].sender);
        krb5_auth_con_free(ctx, ends[side].receiver);
    }
}

int main(int argc, char **argv)
{
    static const unsigned sizes[] = { 64, 200, 1024, 8192, 60000 };
    double seconds = argc > 1 ? atof(argv[1]) : 0.5;
    enum call make;
    size_t i;
    int etype;
    must(krb5_init_context(&ctx), "init_context");
    find_mit_calls();
    memset(text, 0x5a, sizeof text);
    puts("| Message | Type | Bytes | Made here | by MIT's code | MIT's / here | Read here"
         " | by MIT's code | MIT's / here |\n|---|---|--:|--:|--:|--:|--:|--:|--:|");
    for (make = MK_SAFE; make <= MK_PRIV; make += 2)
        for (etype = 17; etype <= 18; etype++)
            for (i = 0; i < sizeof sizes / sizeof sizes[0]; i++)
                row(make, etype, sizes[i], seconds);
    krb5_free_context(ctx);
    return 0;
}
