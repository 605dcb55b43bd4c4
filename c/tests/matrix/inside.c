/* Cases of frames of the independent sealer: authentic ones that are malformed within, and those at limits. */
#include "cases.h"

#include <stdio.h>
#include <string.h>

enum { WAY = 60 };

/* What a call has to answer: the file has this for unsealing, for demands, for receivers and for peers. */
static uint32_t answer_of(const struct call *call, const unsigned answers[4])
{
    if (call->uses == RECEIVER)
        return answers[2];
    if (call->uses == PEER)
        return answers[3];
    return call == call_of("opener_open") ? answers[1] : answers[0];
}

static void give_content(const struct call *call)
{
    given.gives = given.body;
    given.gives_len = given.size;
    if (call->of == OF_RECORDS) {
        given.gives++;
        given.gives_len--;
        given.gives_kind = KRBRELAY_TEXT;
    }
}

static void try_frame(const char *way, const unsigned answers[4])
{
    static uint8_t content[BIG];
    struct given from = given;
    content[0] = 'D';
    memcpy(content + 1, user_data, BIG - 1);
    for (int i = 0; i < call_count; i++) {
        if (calls[i].does != OPENS || calls[i].uses == NO_HANDLE)
            continue;
        given_anew(from.mode, from.etype, from.size);
        given.frame_len = from.frame_len;
        given.body = content;
        give_content(&calls[i]);
        try_call(&calls[i], way, answer_of(&calls[i], answers));
    }
}

long try_inside(const char *path)
{
    unsigned mode, answers[4];
    int etype;
    size_t size, len;
    char way[WAY];
    long count = 0;
    FILE *file = fopen(path, "rb");
    while (file != NULL && fscanf(file, "%u %d %zu %59s %u %u %u %u %zu", &mode, &etype, &size, way, &answers[0],
                                  &answers[1], &answers[2], &answers[3], &len) == 9) {
        given_anew(mode, etype, size);
        given.frame_len = len;
        is_so(fgetc(file) == '\n' && len <= BIG && fread(frame, 1, len, file) == len, "a frame is read");
        try_frame(way, answers);
        count++;
    }
    if (file != NULL)
        fclose(file);
    return count;
}
