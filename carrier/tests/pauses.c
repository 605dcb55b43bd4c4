/* A receiver that pauses once, for STORE_PAUSE milliseconds, after the call that asks the store how far its shard
 * was read. The linker puts this call in the place of that of store.h (--wrap). */
#include "clock.h"
#include "store.h"
#include "wrapped.h"

#include <stdlib.h>

WRAPPED(store_reached);

static void pause_once(void)
{
    static int paused;
    const char *pause = getenv("STORE_PAUSE");
    if (pause != NULL && __sync_bool_compare_and_swap(&paused, 0, 1))
        pause_milliseconds((unsigned)atoi(pause));
}

enum answer __wrap_store_reached(struct store *store, unsigned shard, struct reached *reached)
{
    enum answer answer = __real_store_reached(store, shard, reached);
    pause_once();
    return answer;
}
