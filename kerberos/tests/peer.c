/* Seals and opens messages by MIT's library, or with -DHEIMDAL by Heimdal's, for kerberos/interop.
 *
 * Each line of standard input is a request:
 *
 *   session MODE ETYPE KEY NUMBER FROM TO WRITE_TO    both ends of a new session begin at NUMBER
 *   seal DATA      prints 'frame BYTES', of the sender's next number and the clock's moment
 *   open BYTES     prints 'data BYTES', where the message is the receiver's next one
 *
 * MODE is safe or priv, an address KIND:BYTES, WRITE_TO 1 where messages tell the receiver's
 * address, and bytes are hexadecimal digits. Where the library fails, 'error NUMBER WORDS' is
 * printed. */
#include "../../c/tests/mit_library.h"
#include <ctype.h>
#include <errno.h>
#include <stdio.h>
#include <stdlib.h>
#include <string.h>

enum { LONGEST = 1010000, FLAGS = KRB5_AUTH_CONTEXT_DO_SEQUENCE | KRB5_AUTH_CONTEXT_DO_TIME };

struct bytes { size_t size; unsigned char at[LONGEST]; };

static void read_digits(struct bytes *to, const char *digits)
{
    char pair[3] = "";
    for (to->size = 0; to->size < LONGEST && isxdigit((unsigned char)digits[0])
                       && isxdigit((unsigned char)digits[1]); digits += 2) {
        memcpy(pair, digits, 2);
        to->at[to->size++] = (unsigned char)strtoul(pair, NULL, 16);
    }
}

static void print_bytes(const char *what, const void *at, size_t size)
{
    printf("%s ", what);
    for (size_t i = 0; i < size; i++)
        printf("%02x", ((const unsigned char *)at)[i]);
    putchar('\n');
}

static void print_error(krb5_error_code error)
{
    printf("error %ld %s\n", (long)error, krb5_get_error_message(ctx, error));
}

/* ---- what the two libraries name differently */

#ifdef HEIMDAL
static void free_data(krb5_data *data)
{
    krb5_data_free(data);
}

static krb5_address address_of(int kind, struct bytes *b)
{
    krb5_address a = { .addr_type = kind, .address = { .length = b->size, .data = b->at } };
    return a;
}

static void set_key(krb5_auth_context c, int etype, struct bytes *key)
{
    krb5_keyblock block = { etype, { key->size, key->at } };
    must(krb5_auth_con_setkey(ctx, c, &block), "setkey");
}

static void set_numbers(krb5_auth_context *c, unsigned long number)
{
    must(krb5_auth_con_setlocalseqnumber(ctx, *c, (int32_t)number), "setlocalseqnumber");
    must(krb5_auth_con_setremoteseqnumber(ctx, *c, (int32_t)number), "setremoteseqnumber");
}
#else
/* libkrb5 exports these, and krb5.h doesn't declare them. */
krb5_error_code k5_externalize_auth_context(krb5_auth_context, krb5_octet **, size_t *);
krb5_error_code k5_internalize_auth_context(krb5_auth_context *, krb5_octet **, size_t *);

static void free_data(krb5_data *data)
{
    krb5_free_data_contents(ctx, data);
}

static krb5_address address_of(int kind, struct bytes *b)
{
    krb5_address a = { KV5M_ADDRESS, kind, (unsigned)b->size, b->at };
    return a;
}

static void set_key(krb5_auth_context c, int etype, struct bytes *key)
{
    krb5_keyblock block = { KV5M_KEYBLOCK, etype, (unsigned)key->size, key->at };
    must(krb5_auth_con_setuseruserkey(ctx, c, &block), "setuseruserkey");
}

/* No call sets them: they are written into the context's bytes, after its magic and its flags. */
static void set_numbers(krb5_auth_context *c, unsigned long number)
{
    krb5_octet spelt[4096], *end = spelt;
    size_t room = sizeof spelt;
    krb5_int32 local, remote;
    must(k5_externalize_auth_context(*c, &end, &room), "externalize");
    for (int i = 0; i < 8; i++)
        spelt[8 + i] = (krb5_octet)(number >> (24 - i % 4 * 8));
    krb5_auth_con_free(ctx, *c);
    end = spelt;
    room = sizeof spelt - room;
    must(k5_internalize_auth_context(c, &end, &room), "internalize");
    must(krb5_auth_con_getlocalseqnumber(ctx, *c, &local), "getlocalseqnumber");
    must(krb5_auth_con_getremoteseqnumber(ctx, *c, &remote), "getremoteseqnumber");
    must((krb5_ui_4)local != number || (krb5_ui_4)remote != number, "the numbers");
}
#endif

/* ---- requests */

static int is_safe;
static krb5_auth_context sender, receiver;

static krb5_auth_context context_of(int etype, struct bytes *key, krb5_address *local,
                                    krb5_address *remote, unsigned long number)
{
    krb5_auth_context c;
    must(krb5_auth_con_init(ctx, &c), "auth_con_init");
    must(krb5_auth_con_setaddrs(ctx, c, local, remote), "setaddrs");
    must(krb5_auth_con_setflags(ctx, c, FLAGS), "setflags");
    set_key(c, etype, key);
    set_numbers(&c, number);
    return c;
}

static void begin(const char *words)
{
    static struct bytes key, from_bytes, to_bytes;
    static char key_digits[80], from_digits[80], to_digits[80];
    char mode[8];
    int etype, from_kind, to_kind, write_to;
    unsigned long number;
    krb5_address from, to;
    if (sscanf(words, "%7s %d %79s %lu %d:%79s %d:%79s %d", mode, &etype, key_digits, &number,
               &from_kind, from_digits, &to_kind, to_digits, &write_to) != 9)
        must(EINVAL, "session");
    read_digits(&key, key_digits);
    read_digits(&from_bytes, from_digits);
    read_digits(&to_bytes, to_digits);
    from = address_of(from_kind, &from_bytes);
    to = address_of(to_kind, &to_bytes);
    is_safe = strcmp(mode, "safe") == 0;
    if (sender != NULL) {
        krb5_auth_con_free(ctx, sender);
        krb5_auth_con_free(ctx, receiver);
    }
    sender = context_of(etype, &key, &from, write_to ? &to : NULL, number);
    receiver = context_of(etype, &key, &to, &from, number);
}

static void answer(krb5_error_code error, const char *what, krb5_data *out)
{
    if (error != 0) {
        print_error(error);
        return;
    }
    print_bytes(what, out->data, out->length);
    free_data(out);
}

static void seal(const char *digits)
{
    static struct bytes data;
    krb5_data in = { 0 }, out = { 0 };
    krb5_replay_data replay;
    read_digits(&data, digits);
    in.length = (unsigned)data.size;
    in.data = (void *)data.at;
    answer(is_safe ? krb5_mk_safe(ctx, sender, &in, &out, &replay)
                   : krb5_mk_priv(ctx, sender, &in, &out, &replay), "frame", &out);
}

static void unseal(const char *digits)
{
    static struct bytes frame;
    krb5_data in = { 0 }, out = { 0 };
    krb5_replay_data replay;
    read_digits(&frame, digits);
    in.length = (unsigned)frame.size;
    in.data = (void *)frame.at;
    answer(is_safe ? krb5_rd_safe(ctx, receiver, &in, &out, &replay)
                   : krb5_rd_priv(ctx, receiver, &in, &out, &replay), "data", &out);
}

int main(void)
{
    static char line[2 * LONGEST + 300];
    setenv("KRB5_CONFIG", "/dev/null", 1);
    must(krb5_init_context(&ctx), "init_context");
    while (fgets(line, sizeof line, stdin) != NULL) {
        if (strncmp(line, "session ", 8) == 0)
            begin(line + 8);
        else if (strncmp(line, "seal ", 5) == 0)
            seal(line + 5);
        else if (strncmp(line, "open ", 5) == 0)
            unseal(line + 5);
        else
            must(EINVAL, line);
    }
    return 0;
}
