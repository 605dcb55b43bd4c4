/* The rate of a carrier alone, with no session: publishes frames into a shard, and reads them
 * again.
 *     raw --carrier WHERE --replicas N --shard N --frames N --bytes N */
#include "carrier.h"
#include "clock.h"
#include "waiting.h"

#include <stdio.h>
#include <stdlib.h>

enum { WINDOW = 2048, TAKEN = 256, WAIT = 20 };

static double turns_all(struct carrier *c, unsigned shard, int frames, size_t len)
{
    static uint8_t frame[1 << 20];
    static struct confirmed list[WINDOW];
    uint64_t began = nanoseconds();
    int sent = 0, confirmed = 0;
    while (confirmed < frames) {
        int batch = sent + TAKEN;
        size_t now = 0;
        while (sent < frames && sent < batch && sent - confirmed < WINDOW
               && c->publish(c, shard, "raw", 0, (uint64_t)sent, frame, len) == ANSWER_DONE)
            sent++;
        if (sent - confirmed >= WINDOW || sent == frames)
            waiting_for(c->descriptor, milliseconds() + WAIT);
        (void)c->confirmed(c, list, WINDOW, &now); /* after a fault none has come */
        confirmed += (int)now;
    }
    return frames / ((double)(nanoseconds() - began) / 1e9);
}

static double read_all(struct carrier *c, unsigned shard, int frames)
{
    static struct carried list[TAKEN];
    uint64_t began = nanoseconds();
    int had = 0;
    c->seek(c, shard, 0);
    while (had < frames) {
        size_t now = 0;
        (void)c->fetch(c, list, TAKEN, &now); /* after a fault none has come */
        if (now == 0)
            waiting_for(c->descriptor, milliseconds() + WAIT);
        had += (int)now;
    }
    return frames / ((double)(nanoseconds() - began) / 1e9);
}

int main(int count, char **words)
{
    struct carrier_options options = { .replicas = 1 };
    struct carrier *c;
    double published;
    if (count != 11)
        return 2;
    options.where = words[2];
    options.replicas = (unsigned)atoi(words[4]);
    c = carrier_open(&options);
    if (c == NULL)
        return 1;
    published = turns_all(c, (unsigned)atoi(words[6]), atoi(words[8]), (size_t)atoi(words[10]));
    printf("published %.0f a second, read %.0f a second\n", published,
           read_all(c, (unsigned)atoi(words[6]), atoi(words[8])));
    c->close(c);
    return 0;
}
