/* What a call of the matrix is given, the handles that it uses, and what it writes. */
#ifndef GIVEN_H
#define GIVEN_H
#include "krbrelay.h"
#include "secrets.h"

/* What a call is given. The handle is made as `at_handle` says. */
struct given {
    uint32_t mode, kind, closed;
    unsigned messages;      /* that a call seals which takes several: all alike */
    int32_t etype;
    size_t size, frame_len, room, key_len, body_len;
    uint64_t number, expected;
    struct krbrelay_moment at;
    struct krbrelay_session session;
    struct krbrelay_expect expect;
    struct krbrelay_demand demand;
    const uint8_t *body;
    /* What a call that opens has to give. */
    const uint8_t *gives;
    size_t gives_len;
    uint32_t gives_kind;
    struct {
        int is_empty, is_wiped, holds_another, is_exhausted;
        uint32_t mode;
        int32_t etype;
        uint64_t number;
        struct krbrelay_address sender;
    } at_handle;
};

/* What a call writes. */
struct told {
    size_t size;
    uint32_t kind, closed;
    uint64_t number, next;
    struct krbrelay_carried carried;
    struct krbrelay_header header;
    uint8_t state[KRBRELAY_PEER_STATE_SIZE];
};

struct handles {
    struct krbrelay_sealer sealer;
    struct krbrelay_opener opener;
    struct krbrelay_receiver receiver;
    struct krbrelay_peer peer;
};

/* Which handle a call uses. */
enum uses { NO_HANDLE, SEALER, OPENER, RECEIVER, PEER };

enum { NUMBER = 7 };

extern struct given given;
extern struct told told;
extern struct handles handles;
extern uint8_t frame[BIG], out[BIG];

/* A call as it succeeds: its size of user data at number 7, under the key of this encryption type. */
void given_anew(uint32_t mode, int32_t etype, size_t size);

/* Makes the handle, and has `told` and `out` hold what no call writes. */
void handles_made(enum uses uses, int makes_it);

/* Ends all handles. Answers how many blocks are left. */
long handles_ended(void);

/* How many handles hold something. */
size_t handles_held(void);

/* The numbers that the handles tell, in one. */
uint64_t handles_numbers(void);

/* Has `out` again what no call writes, as far as a call may have written. */
void out_anew(void);

/* Has all of `out` what no call writes. */
void out_begun(void);

/* Whether out and told are as handles_made left them. A call may tell number and carried, if so said. */
int nothing_is_told(int may_tell_number);

/* Writes the frame of a record, or of plain user data where kind is 0, at number 7, under given's mode
 * and encryption type. Answers its size, or 0. */
size_t sealed(uint32_t kind, const uint8_t *bytes, size_t len, uint8_t *to);
#endif
