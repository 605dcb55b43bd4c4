/* What calls leave on the stack below their caller: `dead_stack STRINGS..`, files of lines NAME=HEX.
 *
 * A session's end is made, used and freed on a stack of its own, which is zeros before. Without
 * krbrelay_clear_stack keys are found there then, and no call went deeper than it promises to clear.
 * After it all below the caller is zeros, and the strings are nowhere on that stack. */
#define _GNU_SOURCE
#include "check.h"
#include "frames.h"
#include "krbrelay.h"
#include "session.h"

#include <stdlib.h>
#include <string.h>
#include <sys/mman.h>
#include <ucontext.h>

enum { STACK = 1 << 18, PIECE = 16, MOST_STRINGS = 160, SIZE = 200, ROOM = 4096 };
enum end { SEALER, OPENER, RECEIVER, PEER, OTHERS, ENDS };

/* The frame of krbrelay_clear_stack itself: its return address and what it has to keep. */
enum { OWN_FRAME = 64 };

/* ---- what is searched: each string of 16 bytes, of longer ones each 16 */

struct piece { char name[64]; uint8_t bytes[PIECE]; };

static struct piece pieces[MOST_STRINGS];
static size_t piece_count;

static unsigned digit(char it) { return (unsigned)(it <= '9' ? it - '0' : it - 'a' + 10); }

static void add_string(const char *name, size_t len, const char *hex)
{
    for (size_t at = 0; at + 2 * PIECE <= strlen(hex); at += 2 * PIECE) {
        struct piece *it = &pieces[piece_count++];
        CHECK(piece_count < MOST_STRINGS && len < sizeof it->name);
        memcpy(it->name, name, len);
        for (size_t i = 0; i < PIECE; i++)
            it->bytes[i] = (uint8_t)(digit(hex[at + 2 * i]) << 4 | digit(hex[at + 2 * i + 1]));
    }
}

static void read_strings(const char *path)
{
    char line[512];
    FILE *file = fopen(path, "r");
    CHECK(file != NULL);
    while (file != NULL && fgets(line, sizeof line, file) != NULL) {
        char *hex = strchr(line, '=');
        line[strcspn(line, "\n")] = 0;
        if (hex != NULL)
            add_string(line, (size_t)(hex - line), hex + 1);
    }
    if (file != NULL)
        CHECK(fclose(file) == 0);
}

/* ---- a session's end, on a stack of its own */

struct use { enum end end; uint32_t mode; int etype; int clears; };

static struct use use;
static ucontext_t outside, inside;
static uint8_t *stack, *below;      /* below: where the frames begin that the user calls */
static uint8_t key[32], data[SIZE], frame[ROOM], text[ROOM];
static const uint8_t confounder[16] = { 1 };
static size_t frame_size;
static const struct krbrelay_moment now = { SECS, USEC, 0 };

__attribute__((noinline)) static void note_below(void)
{
    below = __builtin_frame_address(0);
}

static void use_sealer(void)
{
    struct krbrelay_session session = session_of(use.mode, 7);
    struct krbrelay_sealer s = KRBRELAY_INIT;
    CHECK(krbrelay_sealer_new(&s, use.etype, key, key_size(use.etype), &session) == KRBRELAY_OK);
    IS(krbrelay_sealer_seal(&s, data, SIZE, &now, confounder, frame, ROOM, &frame_size));
    krbrelay_sealer_free(&s);
}

static void use_opener(void)
{
    static const struct krbrelay_demand any;
    struct krbrelay_expect expect = expect_of(use.mode);
    struct krbrelay_opener o = KRBRELAY_INIT;
    struct krbrelay_carried carried;
    size_t size = 0;
    CHECK(krbrelay_opener_new(&o, use.etype, key, key_size(use.etype), &expect) == KRBRELAY_OK);
    IS(krbrelay_opener_open(&o, frame, frame_size, &any, &now, text, ROOM, &size, &carried));
    CHECK(krbrelay_opener_unseal(&o, frame, frame_size, 7, &now, text, ROOM, &size) == KRBRELAY_OK);
    CHECK(size == SIZE && memcmp(text, data, SIZE) == 0);
    krbrelay_opener_free(&o);
}

/* Frames in one call first: eight side by side, and the last ones singly. */
static void take_many(struct krbrelay_receiver *r)
{
    enum { COUNT = KRBRELAY_MOST_FRAMES - 1 };
    static struct krbrelay_taken taken[KRBRELAY_MOST_FRAMES];
    struct krbrelay_frame all[COUNT];
    for (int i = 0; i < COUNT; i++)
        all[i] = (struct krbrelay_frame){ frame, frame_size };
    CHECK(krbrelay_receiver_take_many(r, all, COUNT, &now, text, ROOM, taken) == KRBRELAY_OK);
    CHECK(taken[0].answer == KRBRELAY_OK && taken[COUNT - 1].answer == KRBRELAY_BADORDER);
}

static void use_receiver(void)
{
    struct krbrelay_expect expect = expect_of(use.mode);
    struct krbrelay_receiver r = KRBRELAY_INIT;
    uint32_t kind = 0;
    size_t size = 0;
    IS(krbrelay_receiver_new(&r, use.etype, key, key_size(use.etype), &expect, 7, 0));
    take_many(&r);
    IS(krbrelay_receiver_new(&r, use.etype, key, key_size(use.etype), &expect, 7, 0));
    IS(krbrelay_receiver_take(&r, frame, frame_size, &now, &kind, text, ROOM, &size));
    krbrelay_receiver_free(&r);
}

/* Messages that are sealed in one call: eight side by side, four, and one. */
enum { MANY = 13 };

static struct krbrelay_unsealed many[MANY];
static uint8_t many_frames[MANY * ROOM];
static size_t many_sizes[KRBRELAY_MOST_MESSAGES], many_failed;

static void make_many(void)
{
    for (int i = 0; i < MANY; i++) {
        many[i] = (struct krbrelay_unsealed){ .user_data = data, .user_data_len = SIZE, .at = now };
        memcpy(many[i].confounder, confounder, sizeof confounder);
    }
}

/* A peer that seals, also several messages in one call, is offered its own message and the other end's, and goes on
 * from an export. */
static void use_peer(void)
{
    static uint8_t other[ROOM];
    struct krbrelay_session session = session_of(use.mode, 0);
    struct krbrelay_demand demand = { .how_number = KRBRELAY_REQUIRED, .how_sender = KRBRELAY_REQUIRED,
                                      .sender = host(1) };
    struct krbrelay_peer p = KRBRELAY_INIT;
    struct krbrelay_carried carried;
    uint8_t state[KRBRELAY_PEER_STATE_SIZE];
    size_t size = 0, n = 0;
    session.first = 3;
    demand.number = 7;
    CHECK(krbrelay_peer_new(&p, use.etype, key, key_size(use.etype), &session, &demand) == KRBRELAY_OK);
    IS(krbrelay_peer_seal_many(&p, many, MANY, many_frames, sizeof many_frames, many_sizes, &many_failed));
    CHECK(krbrelay_peer_seal_now(&p, data, SIZE, other, ROOM, &n) == KRBRELAY_OK);
    CHECK(krbrelay_peer_seal(&p, data, SIZE, &now, confounder, other, ROOM, &n) == KRBRELAY_OK);
    CHECK(krbrelay_peer_open(&p, other, n, &now, text, ROOM, &size, &carried) == KRBRELAY_BADORDER);
    CHECK(krbrelay_peer_open(&p, frame, frame_size, &now, text, ROOM, &size, &carried) == KRBRELAY_OK);
    CHECK(krbrelay_peer_export(&p, state) == KRBRELAY_OK);
    session.first = 0;
    demand.number = 0;
    IS(krbrelay_peer_resume(&p, use.etype, key, key_size(use.etype), &session, &demand, state));
    krbrelay_peer_free(&p);
}

/* The calls that the others don't make. */
static void use_others(void)
{
    struct krbrelay_session session = session_of(use.mode, 7);
    struct krbrelay_expect expect = expect_of(use.mode);
    struct krbrelay_sealer s = KRBRELAY_INIT;
    struct krbrelay_opener o = KRBRELAY_INIT;
    struct krbrelay_header header;
    static uint8_t other[ROOM];
    char name[KRBRELAY_TEXT_SIZE];
    size_t size = 0, n = 0;
    CHECK(krbrelay_sealer_new(&s, use.etype, key, key_size(use.etype), &session) == KRBRELAY_OK);
    CHECK(krbrelay_sealer_set_mode(&s, 41 - use.mode) == KRBRELAY_OK);
    CHECK(krbrelay_sealer_seal_now(&s, data, SIZE, other, ROOM, &size) == KRBRELAY_OK);
    CHECK(krbrelay_sealer_set_mode(&s, use.mode) == KRBRELAY_OK);
    CHECK(krbrelay_sealer_frame_size(&s, SIZE, &now, &n) == KRBRELAY_OK);
    IS(krbrelay_sealer_seal_record_now(&s, KRBRELAY_TEXT, data, SIZE, other, ROOM, &size));
    IS(krbrelay_sealer_seal_many(&s, many, MANY, many_frames, sizeof many_frames, many_sizes, &many_failed));
    CHECK(krbrelay_opener_new(&o, use.etype, key, key_size(use.etype), &expect) == KRBRELAY_OK);
    CHECK(krbrelay_message_header(frame, frame_size, &header) == KRBRELAY_OK);
    CHECK(krbrelay_answer_text(KRBRELAY_SKEW, name, sizeof name, &n) == KRBRELAY_OK);
    CHECK(krbrelay_opener_unseal_in_place(&o, frame, frame_size, 7, &now, &size) == KRBRELAY_OK);
    krbrelay_sealer_wipe(&s);
    krbrelay_opener_wipe(&o);
    krbrelay_sealer_free(&s);
    krbrelay_opener_free(&o);
}

/* The user of the library: what it calls lies below its frame. */
static void user(void)
{
    static void (*const uses[ENDS])(void) = { use_sealer, use_opener, use_receiver, use_peer,
                                               use_others };
    uses[use.end]();
    if (use.clears)
        krbrelay_clear_stack();
    note_below();
}

static void run(enum end end, uint32_t mode, int etype, int clears)
{
    use = (struct use){ end, mode, etype, clears };
    memset(stack, 0, STACK);
    CHECK(getcontext(&inside) == 0);
    inside.uc_stack.ss_sp = stack;
    inside.uc_stack.ss_size = STACK;
    inside.uc_link = &outside;
    makecontext(&inside, user, 0);
    CHECK(swapcontext(&outside, &inside) == 0);
}

/* ---- what is left on that stack */

/* How many pieces are found, each told if `tells`. */
static size_t found(int tells)
{
    size_t count = 0;
    for (size_t i = 0; i < piece_count; i++) {
        const uint8_t *at = memmem(stack, STACK, pieces[i].bytes, PIECE);
        if (at != NULL && tells)
            printf("%s on the dead stack, %td bytes below the caller\n", pieces[i].name, below - at);
        count += at != NULL;
    }
    return count;
}

static int is_zeros(const uint8_t *from, const uint8_t *to)
{
    while (from < to && *from == 0)
        from++;
    return from == to;
}

/* How far below the caller a byte was written. */
static size_t depth(void)
{
    const uint8_t *at = stack;
    while (at < below && *at == 0)
        at++;
    return (size_t)(below - at);
}

/* One record at number 7, for openers and receivers. */
static void seal_record(uint32_t mode, int etype)
{
    struct krbrelay_session session = session_of(mode, 7);
    struct krbrelay_sealer s = KRBRELAY_INIT;
    CHECK(krbrelay_sealer_new(&s, etype, key, key_size(etype), &session) == KRBRELAY_OK);
    CHECK(krbrelay_sealer_seal_record(&s, KRBRELAY_TEXT, data + 1, SIZE - 1, &now, confounder,
                                      frame, ROOM, &frame_size) == KRBRELAY_OK);
    krbrelay_sealer_free(&s);
}

/* How many pieces each end leaves where it doesn't clear them: in a mode its last calls may overwrite
 * all that the others left. */
static size_t left[ENDS];

/* What each end leaves, and what is left of it. Returns how deep its calls went. */
static size_t end_of_session(enum end end, uint32_t mode, int etype)
{
    size_t deep;
    seal_record(mode, etype);
    run(end, mode, etype, 0);
    deep = depth();
    CHECK(deep < KRBRELAY_STACK_SIZE);
    left[end] += found(0);
    seal_record(mode, etype);
    run(end, mode, etype, 1);
    CHECK(found(1) == 0);
    CHECK(is_zeros(stack, below - OWN_FRAME));
    return deep;
}

int main(int argc, char **argv)
{
    size_t deepest = 0;
    for (int i = 1; i < argc; i++)
        read_strings(argv[i]);
    CHECK(piece_count > 0);
    for (int i = 0; i < 32; i++)
        key[i] = (uint8_t)(0xa0 + i * 5);
    data[0] = 'D';                      /* the first byte of a record that is a text */
    make_many();
    stack = mmap(NULL, STACK, PROT_READ | PROT_WRITE, MAP_PRIVATE | MAP_ANONYMOUS, -1, 0);
    if (stack == MAP_FAILED)
        return 1;
    for (uint32_t mode = KRBRELAY_SAFE; mode <= KRBRELAY_PRIV; mode++)
        for (int etype = 17; etype <= 18; etype++)
            for (enum end end = 0; end < ENDS; end++) {
                size_t deep = end_of_session(end, mode, etype);
                deepest = deep > deepest ? deep : deepest;
            }
    for (enum end end = 0; end < ENDS; end++)
        CHECK(left[end] > 0);
    printf("dead stack: the calls go %zu bytes deep\n", deepest);
    return check_status("dead_stack");
}
