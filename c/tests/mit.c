/* A session that MIT's library opens, by its AP exchange (RFC 4120 section 3.2), and whose messages
 * ours and MIT's library exchange in all directions. Keys, addresses and numbers are those of MIT's
 * auth context, by its public calls: so a program can keep MIT's exchange and use ours for its
 * messages. No KDC is asked: the ticket is made here, under a service key made here. */
#include "check.h"
#include "krbrelay.h"
#include "mit_library.h"

#include <stdlib.h>
#include <string.h>
#include <time.h>

/* libkrb5 exports these, and krb5.h doesn't declare them. */
krb5_error_code krb5_encrypt_tkt_part(krb5_context, const krb5_keyblock *, krb5_ticket *);
krb5_error_code encode_krb5_ticket(const krb5_ticket *, krb5_data **);
void krb5_free_address(krb5_context, krb5_address *);

/* One end: MIT's auth context, and ours made of it. */
struct end {
    krb5_auth_context mit;
    struct krbrelay_sealer sealer;
    struct krbrelay_opener opener;
    uint64_t expected;
};

static uint8_t client_bytes[4] = { 10, 0, 0, 1 }, server_bytes[4] = { 10, 0, 0, 255 };
static krb5_address client_address = { KV5M_ADDRESS, ADDRTYPE_INET, 4, client_bytes };
static krb5_address server_address = { KV5M_ADDRESS, ADDRTYPE_INET, 4, server_bytes };

/* ---- the exchange, by MIT's library alone */

static krb5_principal principal(const char *name)
{
    krb5_principal p;
    must(krb5_parse_name(ctx, name, &p), "parse_name");
    return p;
}

/* A ticket for the session key, under the service's key. */
static void make_ticket(krb5_creds *creds, const krb5_keyblock *service_key)
{
    krb5_enc_tkt_part part = { .magic = KV5M_ENC_TKT_PART, .flags = TKT_FLG_INITIAL };
    krb5_ticket ticket = { .magic = KV5M_TICKET, .server = creds->server, .enc_part2 = &part };
    krb5_data *spelt;
    part.session = &creds->keyblock;
    part.client = creds->client;
    part.times = creds->times;
    part.transited.tr_type = 1;
    must(krb5_encrypt_tkt_part(ctx, service_key, &ticket), "encrypt_tkt_part");
    must(encode_krb5_ticket(&ticket, &spelt), "encode_ticket");
    creds->ticket = *spelt;
    free(spelt);
    krb5_free_data_contents(ctx, &ticket.enc_part.ciphertext);
}

static krb5_keytab keytab_of(const char *name, krb5_principal service, const krb5_keyblock *key)
{
    krb5_keytab keytab;
    krb5_keytab_entry entry = { .magic = KV5M_KEYTAB_ENTRY, .principal = service, .vno = 0 };
    entry.key = *key;
    must(krb5_kt_resolve(ctx, name, &keytab), "kt_resolve");
    must(krb5_kt_add_entry(ctx, keytab, &entry), "kt_add_entry");
    return keytab;
}

static krb5_auth_context context_of(krb5_address *local, krb5_address *remote)
{
    krb5_auth_context c;
    must(krb5_auth_con_init(ctx, &c), "auth_con_init");
    must(krb5_auth_con_setflags(ctx, c, KRB5_AUTH_CONTEXT_DO_SEQUENCE | KRB5_AUTH_CONTEXT_DO_TIME),
         "setflags");
    must(krb5_auth_con_setaddrs(ctx, c, local, remote), "setaddrs");
    return c;
}

/* AP-REQ with a sub-session key of the client, and AP-REP. */
static void exchange(krb5_enctype etype, krb5_auth_context *client, krb5_auth_context *server)
{
    krb5_creds creds = { .magic = KV5M_CREDS };
    krb5_keyblock service_key;
    krb5_data request, reply;
    krb5_ap_rep_enc_part *part;
    krb5_keytab keytab;
    char name[32];
    creds.client = principal("alice@EXAMPLE.COM");
    creds.server = principal("relay/host@EXAMPLE.COM");
    creds.times.authtime = creds.times.starttime = (krb5_timestamp)time(NULL);
    creds.times.endtime = creds.times.authtime + 3600;
    must(krb5_c_make_random_key(ctx, etype, &creds.keyblock), "random key");
    must(krb5_c_make_random_key(ctx, ENCTYPE_AES256_CTS_HMAC_SHA1_96, &service_key), "random key");
    make_ticket(&creds, &service_key);
    snprintf(name, sizeof name, "MEMORY:%d", (int)etype);
    keytab = keytab_of(name, creds.server, &service_key);
    *client = context_of(&client_address, &server_address);
    *server = context_of(&server_address, &client_address);
    must(krb5_mk_req_extended(ctx, client, AP_OPTS_USE_SUBKEY | AP_OPTS_MUTUAL_REQUIRED, NULL,
                              &creds, &request), "mk_req");
    must(krb5_rd_req(ctx, server, &request, creds.server, keytab, NULL, NULL), "rd_req");
    must(krb5_mk_rep(ctx, *server, &reply), "mk_rep");
    must(krb5_rd_rep(ctx, *client, &reply, &part), "rd_rep");
    krb5_free_ap_rep_enc_part(ctx, part);
    krb5_free_data_contents(ctx, &request);
    krb5_free_data_contents(ctx, &reply);
    krb5_kt_close(ctx, keytab);
    krb5_free_keyblock_contents(ctx, &service_key);
    krb5_free_cred_contents(ctx, &creds);
}

/* ---- ours, of MIT's auth context */

static struct krbrelay_address address_of(const krb5_address *mit)
{
    struct krbrelay_address a = { .kind = mit->addrtype, .len = mit->length };
    CHECK(mit->length <= sizeof a.bytes);
    memcpy(a.bytes, mit->contents, mit->length);
    return a;
}

/* What MIT's end has for the messages of one direction. The key is the caller's to free. */
struct direction { struct krbrelay_address local, remote; uint32_t number; krb5_keyblock *key; };

typedef krb5_error_code number_call(krb5_context, krb5_auth_context, krb5_int32 *);
typedef krb5_error_code key_call(krb5_context, krb5_auth_context, krb5_keyblock **);

static struct direction direction_of(const struct end *e, number_call *get_number,
                                     key_call *get_key)
{
    struct direction d = { 0 };
    krb5_address *local = NULL, *remote = NULL;
    krb5_int32 number = 0;
    must(krb5_auth_con_getaddrs(ctx, e->mit, &local, &remote), "getaddrs");
    must(get_number(ctx, e->mit, &number), "the sequence number");
    must(get_key(ctx, e->mit, &d.key), "the sub-session key");
    CHECK(d.key != NULL);
    d.number = (uint32_t)number;
    d.local = address_of(local);
    d.remote = address_of(remote);
    krb5_free_address(ctx, local);
    krb5_free_address(ctx, remote);
    return d;
}

/* A sealer that goes on where MIT's end would send. */
static void sealer_of(struct end *e, uint32_t mode)
{
    struct direction d = direction_of(e, krb5_auth_con_getlocalseqnumber,
                                      krb5_auth_con_getsendsubkey);
    struct krbrelay_session session = {
        .mode = mode, .first = d.number, .sender = d.local
    };
    CHECK(krbrelay_sealer_new(&e->sealer, d.key->enctype, d.key->contents, d.key->length,
                         &session) == KRBRELAY_OK);
    krb5_free_keyblock(ctx, d.key);
}

/* An opener that goes on where MIT's end would receive, and the number that it demands first. */
static void opener_of(struct end *e, uint32_t mode)
{
    struct direction d = direction_of(e, krb5_auth_con_getremoteseqnumber,
                                      krb5_auth_con_getrecvsubkey);
    struct krbrelay_expect expect = {
        .mode = mode, .sender = d.remote, .receiver = d.local, .require_time = 1, .skew = 300
    };
    e->expected = d.number;
    CHECK(krbrelay_opener_new(&e->opener, d.key->enctype, d.key->contents, d.key->length,
                         &expect) == KRBRELAY_OK);
    krb5_free_keyblock(ctx, d.key);
}

static void ours_of(struct end *e, uint32_t mode)
{
    sealer_of(e, mode);
    opener_of(e, mode);
}

/* ---- messages */

static uint8_t frame[KRBRELAY_FRAME_LIMIT], text[KRBRELAY_FRAME_LIMIT], sent[60000];

static struct krbrelay_moment read_clock(void)
{
    struct krbrelay_moment at = { 0 };
    struct timespec now;
    clock_gettime(CLOCK_REALTIME, &now);
    at.seconds = (uint64_t)now.tv_sec;
    at.microseconds = (uint32_t)(now.tv_nsec / 1000);
    return at;
}

static size_t our_frame(struct end *e, size_t len)
{
    uint8_t confounder[16];
    krb5_data random = { KV5M_DATA, sizeof confounder, (char *)confounder };
    struct krbrelay_moment at;
    size_t size = 0;
    must(krb5_c_random_make_octets(ctx, &random), "random");
    at = read_clock();
    CHECK(krbrelay_sealer_seal(&e->sealer, sent, len, &at, confounder, frame,
                               krbrelay_frame_size(len), &size) == KRBRELAY_OK);
    return size;
}

static uint32_t open_ours(struct end *e, size_t len, size_t *size)
{
    struct krbrelay_moment at = read_clock();
    return krbrelay_opener_unseal(&e->opener, frame, len, e->expected, &at, text, sizeof text,
                                  size);
}

/* Ours reads the frame, at its own number alone, and unchanged alone. */
static void ours_reads(struct end *to, uint32_t mode, size_t size, size_t len)
{
    uint32_t changed = mode == KRBRELAY_SAFE ? KRBRELAY_MODIFIED : KRBRELAY_BAD_INTEGRITY;
    size_t back = 0;
    to->expected++;
    CHECK(open_ours(to, size, &back) == KRBRELAY_BADORDER);
    to->expected--;
    frame[size - 1] ^= 1;
    CHECK(open_ours(to, size, &back) == changed);
    frame[size - 1] ^= 1;
    CHECK(open_ours(to, size, &back) == KRBRELAY_OK);
    CHECK(back == len && memcmp(text, sent, len) == 0);
    to->expected++;
}

static void ours_to_mit(struct end *from, struct end *to, uint32_t mode, size_t len)
{
    size_t size = our_frame(from, len);
    krb5_data in = { KV5M_DATA, (unsigned)size, (char *)frame }, out = { 0 };
    krb5_replay_data replay;
    krb5_error_code error = mode == KRBRELAY_SAFE ? krb5_rd_safe(ctx, to->mit, &in, &out, &replay)
                                             : krb5_rd_priv(ctx, to->mit, &in, &out, &replay);
    CHECK(error == 0);
    CHECK(error != 0 || (out.length == len && memcmp(out.data, sent, len) == 0));
    krb5_free_data_contents(ctx, &out);
}

static void mit_to_ours(struct end *from, struct end *to, uint32_t mode, size_t len)
{
    krb5_data in = { KV5M_DATA, (unsigned)len, (char *)sent }, out = { 0 };
    krb5_replay_data replay;
    struct krbrelay_header header;
    size_t size;
    must(mode == KRBRELAY_SAFE ? krb5_mk_safe(ctx, from->mit, &in, &out, &replay)
                          : krb5_mk_priv(ctx, from->mit, &in, &out, &replay), "mk");
    size = out.length;
    memcpy(frame, out.data, size);
    krb5_free_data_contents(ctx, &out);
    CHECK(krbrelay_message_header(frame, size, &header) == KRBRELAY_OK && header.kind == mode);
    CHECK(mode == KRBRELAY_PRIV || (header.has_number && header.number == to->expected));
    ours_reads(to, mode, size, len);
}

static void ours_to_ours(struct end *from, struct end *to, uint32_t mode, size_t len)
{
    ours_reads(to, mode, our_frame(from, len), len);
}

/* ---- peers: MIT's library at one end, and a peer at the other, both ways in turn */

/* A peer in the place of MIT's end. MIT leaves the number 0 out of its messages. */
static struct krbrelay_peer peer_in(const struct end *e, uint32_t mode, uint32_t *first)
{
    struct direction out = direction_of(e, krb5_auth_con_getlocalseqnumber,
                                        krb5_auth_con_getsendsubkey);
    struct direction in = direction_of(e, krb5_auth_con_getremoteseqnumber,
                                       krb5_auth_con_getrecvsubkey);
    struct krbrelay_session session = { .mode = mode, .first = out.number, .sender = out.local };
    struct krbrelay_demand demand = {
        .how_sender = KRBRELAY_REQUIRED, .sender = in.remote,
        .how_receiver = KRBRELAY_IF_PRESENT, .receiver = in.local,
        .how_time = KRBRELAY_REQUIRED, .skew = 300,
        .how_number = KRBRELAY_ABSENT_IS_0, .number = in.number
    };
    struct krbrelay_peer peer = KRBRELAY_INIT;
    CHECK(out.key->length == in.key->length
          && memcmp(out.key->contents, in.key->contents, in.key->length) == 0);
    CHECK(krbrelay_peer_new(&peer, out.key->enctype, out.key->contents, out.key->length, &session,
                            &demand) == KRBRELAY_OK);
    *first = in.number;
    krb5_free_keyblock(ctx, out.key);
    krb5_free_keyblock(ctx, in.key);
    return peer;
}

/* The peer opens MIT's message, and tells its number where it comes again. */
static void mit_to_peer(struct end *from, struct krbrelay_peer *to, uint32_t mode, uint32_t number,
                        size_t len)
{
    krb5_data in = { KV5M_DATA, (unsigned)len, (char *)sent }, out = { 0 };
    krb5_replay_data replay;
    struct krbrelay_carried carried = KRBRELAY_INIT;
    struct krbrelay_moment now = read_clock();
    size_t size = 0;
    must(mode == KRBRELAY_SAFE ? krb5_mk_safe(ctx, from->mit, &in, &out, &replay)
                          : krb5_mk_priv(ctx, from->mit, &in, &out, &replay), "mk");
    for (int again = 0; again < 2; again++) {
        CHECK(krbrelay_peer_open(to, (const uint8_t *)out.data, out.length, &now, text, sizeof text,
                                 &size, &carried) == (again ? KRBRELAY_BADORDER : KRBRELAY_OK));
        CHECK(size == len && memcmp(text, sent, len) == 0);
        CHECK(carried.number == number && carried.has_number == (number != 0));
    }
    krb5_free_data_contents(ctx, &out);
}

static void peer_to_mit(struct krbrelay_peer *from, struct end *to, uint32_t mode, size_t len)
{
    krb5_data in = { KV5M_DATA, 0, (char *)frame }, out = { 0 };
    krb5_replay_data replay;
    krb5_error_code error;
    size_t size = 0;
    CHECK(krbrelay_peer_seal_now(from, sent, len, frame, sizeof frame, &size) == KRBRELAY_OK);
    in.length = (unsigned)size;
    error = mode == KRBRELAY_SAFE ? krb5_rd_safe(ctx, to->mit, &in, &out, &replay)
                                  : krb5_rd_priv(ctx, to->mit, &in, &out, &replay);
    CHECK(error == 0);
    CHECK(error != 0 || (out.length == len && memcmp(out.data, sent, len) == 0));
    krb5_free_data_contents(ctx, &out);
}

/* A session of MIT's exchange, with the numbers that MIT chose. */
static void with_a_peer(krb5_enctype etype, uint32_t mode, int at_server)
{
    static const size_t sizes[] = { 0, 1, 16, 17, 1024, 60000 };
    struct end client = { 0 }, server = { 0 };
    struct krbrelay_peer peer;
    struct end *mit = at_server ? &client : &server;
    uint32_t number;
    exchange(etype, &client.mit, &server.mit);
    peer = peer_in(at_server ? &server : &client, mode, &number);
    for (size_t i = 0; i < sizeof sizes / sizeof sizes[0]; i++) {
        mit_to_peer(mit, &peer, mode, number++, sizes[i]);
        peer_to_mit(&peer, mit, mode, sizes[i]);
        mit_to_peer(mit, &peer, mode, number++, 3);
    }
    krbrelay_peer_free(&peer);
    krb5_auth_con_free(ctx, client.mit);
    krb5_auth_con_free(ctx, server.mit);
}

/* What one end of a new session sends the other: first by one library, then read by another. */
static void one_way(krb5_enctype etype, uint32_t mode, int from_server, int who)
{
    static const size_t sizes[] = { 0, 1, 15, 16, 17, 64, 1024, 60000 };
    struct end client = { 0 }, server = { 0 };
    struct end *from = from_server ? &server : &client, *to = from_server ? &client : &server;
    exchange(etype, &client.mit, &server.mit);
    ours_of(&client, mode);
    ours_of(&server, mode);
    for (size_t i = 0; i < sizeof sizes / sizeof sizes[0]; i++) {
        if (who == 0)
            ours_to_mit(from, to, mode, sizes[i]);
        else if (who == 1)
            mit_to_ours(from, to, mode, sizes[i]);
        else
            ours_to_ours(from, to, mode, sizes[i]);
    }
    krbrelay_sealer_free(&client.sealer);
    krbrelay_opener_free(&client.opener);
    krbrelay_sealer_free(&server.sealer);
    krbrelay_opener_free(&server.opener);
    krb5_auth_con_free(ctx, client.mit);
    krb5_auth_con_free(ctx, server.mit);
}

int main(int count, char **words)
{
    check_only(1, count, words);
    /* The service keeps no file of the requests that it read. */
    setenv("KRB5RCACHENAME", "none:", 1);
    setenv("KRB5_CONFIG", "/dev/null", 1);
    if (krb5_init_context(&ctx) != 0)
        return 2;
    for (size_t i = 0; i < sizeof sent; i++)
        sent[i] = (uint8_t)(i * 7 + i / 256);
    for (krb5_enctype etype = 17; etype <= 18; etype++)
        for (uint32_t mode = KRBRELAY_SAFE; mode <= KRBRELAY_PRIV; mode++)
            for (int from_server = 0; from_server < 2; from_server++) {
                RUN(with_a_peer(etype, mode, from_server));
                for (int who = 0; who < 3; who++)
                    RUN(one_way(etype, mode, from_server, who));
            }
    krb5_free_context(ctx);
    return check_status("mit");
}
