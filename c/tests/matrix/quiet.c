/* The calls that ask the allocator for nothing or keep nothing of it, and leave no secret where they end a handle. */
#include "cases.h"

#include <string.h>

/* Whether a call is one on a handle that holds nothing too. */
static uint32_t answer_of_empty(const struct call *call)
{
    size_t len = strlen(call->name);
    int ends = len > 5 && strcmp(call->name + len - 5, "_free") == 0;
    return ends || (len > 5 && strcmp(call->name + len - 5, "_wipe") == 0) ? KRBRELAY_OK : KRBRELAY_EMPTY;
}

static void try_quiet_by(struct call *call, uint32_t mode, int32_t etype, size_t size)
{
    int is_long = call == call_of("sealer_frame_size") && size > KRBRELAY_USER_DATA_LIMIT;
    given_anew(mode, etype, size);
    try_call(call, "done", is_long ? KRBRELAY_TOO_LONG : KRBRELAY_OK);
    if (call->uses == NO_HANDLE)
        return;
    given_anew(mode, etype, size);
    empty();
    try_call(call, "empty", answer_of_empty(call));
}

void try_quiet(uint32_t mode, int32_t etype, size_t size)
{
    for (int i = 0; i < call_count; i++)
        if (calls[i].does == ASKS_NOTHING || calls[i].does == KEEPS_NOTHING)
            try_quiet_by(&calls[i], mode, etype, size);
}
