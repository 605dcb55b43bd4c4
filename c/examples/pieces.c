/* The examples of the manual's pages, a function each, in one session of a client and a server. */
#include <krbrelay.h>

#include <netinet/in.h>
#include <stdio.h>
#include <string.h>
#include <sys/socket.h>
#include <unistd.h>

static const uint8_t key[32] = "a key of encryption type 18: 32";
static const struct krbrelay_address client = { KRBRELAY_DIRECTIONAL, 4, { 0, 0, 0, 0 } };
static const struct krbrelay_address server = { KRBRELAY_DIRECTIONAL, 4, { 0, 0, 0, 1 } };
static uint8_t frame[KRBRELAY_FRAME_SIZE(64)];

/* krbrelay_now(3): how many bytes were sealed, 0 where it failed. */
static size_t seal(struct krbrelay_sealer *it, const uint8_t *text, size_t len)
{
    struct krbrelay_sealer sealer = *it;
    size_t size;
    enum krbrelay_answer answer = krbrelay_sealer_seal_now(&sealer, text, len,
                                                           frame, sizeof frame, &size);
    if (answer != KRBRELAY_OK)
        fprintf(stderr, "not sealed: %s\n", krbrelay_strerror(answer));
    *it = sealer;
    return answer == KRBRELAY_OK ? size : 0;
}

/* krbrelay_peer_new(3): the client, which sealed a text. */
static enum krbrelay_answer begin(struct krbrelay_peer *it, const uint8_t *text, size_t len)
{
    struct krbrelay_peer peer = KRBRELAY_INIT;
    enum krbrelay_answer answer;
    size_t size;
    struct krbrelay_session session = { .mode = KRBRELAY_PRIV, .sender = client };
    struct krbrelay_demand demand = { .how_sender = KRBRELAY_REQUIRED, .sender = server,
                                      .how_time = KRBRELAY_REQUIRED, .skew = 300,
                                      .how_number = KRBRELAY_REQUIRED };
    answer = krbrelay_peer_new(&peer, 18, key, sizeof key, &session, &demand);
    if (answer == KRBRELAY_OK)
        answer = krbrelay_peer_seal_now(&peer, text, len, frame, sizeof frame, &size);
    *it = peer;
    return answer;
}

/* krbrelay_batch_add(3): prints the texts of a batch. */
static void print_texts(const uint8_t *bytes, size_t size)
{
    size_t at = 0, len;
    const uint8_t *text;
    while (krbrelay_batch_next(bytes, size, &at, &text, &len) == KRBRELAY_OK)
        printf("%.*s\n", (int)len, (const char *)text);
}

/* krbrelay_address_from(3): expects what the other end of a socket sends. */
static enum krbrelay_answer expect_peer(int fd, struct krbrelay_expect *it)
{
    struct krbrelay_expect expect = *it;
    enum krbrelay_answer answer = KRBRELAY_ADDRESS;
    struct sockaddr_storage peer;
    socklen_t len = sizeof peer;
    if (getpeername(fd, (struct sockaddr *)&peer, &len) == 0)
        answer = krbrelay_address_from(&expect.sender, (struct sockaddr *)&peer, len);
    *it = expect;
    return answer;
}

static uint64_t stored[2];

static uint64_t published;

static void publish(uint64_t number, uint64_t count)
{
    published = number + count;
}

/* krbrelay_sending(3): it is the session's turn. */
static void serve(struct krbrelay_sending sending, uint64_t room, uint64_t now)
{
    struct krbrelay_command command;
    if (krbrelay_sending_serve(&sending, room, now, &command) == KRBRELAY_OK
        && command.kind == KRBRELAY_COMMAND_PUBLISH)
        publish(command.number, command.count);
}

static void store_carried(uint64_t carried, uint64_t at)
{
    stored[0] = carried;
    stored[1] = at;
}

/* krbrelay_progress(3): the carrier confirmed a frame. */
static void confirmed(struct krbrelay_progress progress, uint64_t number, uint64_t offset)
{
    uint32_t counts;
    if (krbrelay_progress_confirm(&progress, number, offset, &counts) == KRBRELAY_OK && counts)
        store_carried(progress.carried, progress.at);
}

/* Whether both calls that seal did. */
static int seals(void)
{
    struct krbrelay_session session = { .mode = KRBRELAY_SAFE, .sender = client };
    struct krbrelay_sealer sealer = KRBRELAY_INIT;
    struct krbrelay_peer peer = KRBRELAY_INIT;
    int done = krbrelay_sealer_new(&sealer, 18, key, sizeof key, &session) == KRBRELAY_OK
               && seal(&sealer, (const uint8_t *)"text", 4) > 0
               && begin(&peer, (const uint8_t *)"text", 4) == KRBRELAY_OK;
    krbrelay_sealer_free(&sealer);
    krbrelay_peer_free(&peer);
    return done;
}

/* Whether the address of a connected socket of this machine is read. */
static int reads_addresses(void)
{
    struct sockaddr_in here = { .sin_family = AF_INET, .sin_addr.s_addr = htonl(INADDR_LOOPBACK) };
    struct krbrelay_expect expect = { .mode = KRBRELAY_PRIV };
    int fd = socket(AF_INET, SOCK_DGRAM, 0), done;
    here.sin_port = htons(9);
    done = fd >= 0 && connect(fd, (struct sockaddr *)&here, sizeof here) == 0
           && expect_peer(fd, &expect) == KRBRELAY_OK && expect.sender.kind == KRBRELAY_IPV4
           && memcmp(expect.sender.bytes, "\x7f\0\0\1", 4) == 0;
    if (fd >= 0)
        close(fd);
    return done;
}

/* Whether the texts of a batch were printed. */
static int prints(void)
{
    uint8_t batch[32];
    size_t size = 0;
    if (krbrelay_batch_add(batch, sizeof batch, &size, (const uint8_t *)"one", 3) != KRBRELAY_OK
        || krbrelay_batch_add(batch, sizeof batch, &size, (const uint8_t *)"two", 3) != KRBRELAY_OK)
        return 0;
    print_texts(batch, size);
    return 1;
}

/* Whether the first frame of a session was carried at offset 5. */
static int carries(void)
{
    struct krbrelay_progress progress;
    if (krbrelay_progress_new(&progress, 1, 0, 0) != KRBRELAY_OK
        || krbrelay_progress_publish(&progress, 1) != KRBRELAY_OK)
        return 0;
    confirmed(progress, 0, 5);
    return stored[0] == 1 && stored[1] == 5;
}

/* Whether both frames that are stored leave. */
static int serves(void)
{
    struct krbrelay_sending sending;
    if (krbrelay_sending_load(&sending, 2, 0, 0, 0, 1, 0) != KRBRELAY_OK)
        return 0;
    serve(sending, 8, 0);
    return published == 2;
}

/* krbrelay_check_session(3): the name of the field of a demand by which a peer refuses it, or NULL. */
static const char *wrong_field(struct krbrelay_demand demand)
{
    struct krbrelay_session session = { .mode = KRBRELAY_PRIV, .sender = client };
    struct krbrelay_peer peer = KRBRELAY_INIT;
    const char *name = NULL;
    if (krbrelay_peer_new(&peer, 18, key, sizeof key, &session, &demand) == KRBRELAY_ARGUMENT)
        name = krbrelay_field_name(krbrelay_check_peer_demand(&demand));
    krbrelay_peer_free(&peer);
    return name;
}

/* Whether the wrong field of a demand that forgets the number is named. */
static int names_fields(void)
{
    struct krbrelay_demand demand = { .how_time = KRBRELAY_REQUIRED, .skew = 300 };
    const char *name = wrong_field(demand);
    return name != NULL && strcmp(name, "how_number") == 0;
}

int main(void)
{
    return !(seals() && reads_addresses() && prints() && carries() && serves() && names_fields());
}
