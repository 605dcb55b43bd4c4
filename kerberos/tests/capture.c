/* Keeps each KRB-SAFE and KRB-PRIV that a program makes or reads by MIT's libkrb5, and the key: a library to be
 * preloaded.
 *
 * The variable KRBRELAY_CAPTURE names a folder, which is there. Each message that the program makes is a line of
 * hexadecimal digits in its file `made`, and each that it reads one in `read`, also where it is refused. `made.key` and
 * `read.key` have the key of the last one: the subkey of the end that made it where there is one, or else the session
 * key, as RFC 4120 section 5.7.1 says. `calls` has a line for each call: its name, MIT's answer, and what is demanded
 * of the message, as options of `python3 -m krbrelay why`. The files are the user's alone. Nothing of the
 * messages is changed: MIT's own code makes and reads them. */
#define _GNU_SOURCE
#include <dlfcn.h>
#include <fcntl.h>
#include <krb5.h>
#include <stdio.h>
#include <stdlib.h>
#include <unistd.h>

/* Opens a file of the folder, to write after what is there if flags say O_APPEND. */
static FILE *file_of(const char *name, int flags)
{
    const char *folder = getenv("KRBRELAY_CAPTURE");
    char path[4096];
    if (!folder || snprintf(path, sizeof path, "%s/%s", folder, name) >= (int)sizeof path)
        return NULL;
    int number = open(path, O_WRONLY | O_CREAT | flags, 0600);
    FILE *file = number < 0 ? NULL : fdopen(number, "a");
    if (file)
        return file;
    perror(path);
    if (number >= 0)
        close(number);
    return NULL;
}

static void write_digits(FILE *file, const void *bytes, size_t len)
{
    for (size_t i = 0; i < len; i++)
        fprintf(file, "%02x", ((const unsigned char *)bytes)[i]);
}

static void write_line(const char *name, int flags, const void *bytes, size_t len)
{
    FILE *file = file_of(name, flags);
    if (!file)
        return;
    write_digits(file, bytes, len);
    fputc('\n', file);
    if (fclose(file) != 0)
        perror(name);
}

/* What a call had to do with. */
struct call {
    const char *name;
    krb5_context context;
    krb5_auth_context auth;
    int makes;
    int32_t number; /* of the message: before the call, which moves it */
};

static struct call begun(const char *name, krb5_context context, krb5_auth_context auth, int makes)
{
    struct call it = {name, context, auth, makes, 0};
    if (makes)
        krb5_auth_con_getlocalseqnumber(context, auth, &it.number);
    else
        krb5_auth_con_getremoteseqnumber(context, auth, &it.number);
    return it;
}

/* The key of a message that this end makes or reads. */
static krb5_keyblock *key_of(const struct call *it)
{
    krb5_keyblock *key = NULL;
    krb5_error_code failed = it->makes ? krb5_auth_con_getsendsubkey(it->context, it->auth, &key)
                                       : krb5_auth_con_getrecvsubkey(it->context, it->auth, &key);
    if ((failed || !key) && krb5_auth_con_getkey(it->context, it->auth, &key) != 0)
        return NULL;
    return key;
}

/* Writes an address as an option, and frees it. */
static void write_address(FILE *file, krb5_context context, const char *option, krb5_address *address)
{
    krb5_address **list = address ? calloc(2, sizeof *list) : NULL;
    if (!list)
        return;
    fprintf(file, " %s %d:", option, (int)address->addrtype);
    write_digits(file, address->contents, address->length);
    list[0] = address;
    krb5_free_addresses(context, list);
}

static void write_call(const struct call *it, krb5_error_code answer)
{
    FILE *file = file_of("calls", O_APPEND);
    krb5_address *local = NULL, *remote = NULL;
    krb5_int32 flags = 0;
    if (!file)
        return;
    fprintf(file, "%s %d:", it->name, (int)answer);
    if (krb5_auth_con_getaddrs(it->context, it->auth, &local, &remote) == 0) {
        write_address(file, it->context, "--from", it->makes ? local : remote);
        write_address(file, it->context, "--to", it->makes ? remote : local);
    }
    if (krb5_auth_con_getflags(it->context, it->auth, &flags) == 0 && flags & KRB5_AUTH_CONTEXT_DO_SEQUENCE)
        fprintf(file, " --number %u", (unsigned)it->number);
    fputs(flags & KRB5_AUTH_CONTEXT_DO_TIME ? " --skew 300\n" : "\n", file);
    if (fclose(file) != 0)
        perror("calls");
}

/* Keeps the message of a call, and its key. */
static krb5_error_code kept(const struct call *it, krb5_error_code answer, const krb5_data *message)
{
    krb5_keyblock *key = it->makes && answer ? NULL : key_of(it);
    write_call(it, answer);
    if (key) {
        write_line(it->makes ? "made" : "read", O_APPEND, message->data, message->length);
        write_line(it->makes ? "made.key" : "read.key", O_TRUNC, key->contents, key->length);
        krb5_free_keyblock(it->context, key);
    }
    return answer;
}

typedef krb5_error_code call_type(krb5_context, krb5_auth_context, const krb5_data *, krb5_data *, krb5_replay_data *);

static krb5_error_code passed_on(const char *name, krb5_context context, krb5_auth_context auth, const krb5_data *given,
                                 krb5_data *result, krb5_replay_data *told, int makes)
{
    call_type *call;
    *(void **)&call = dlsym(RTLD_NEXT, name);
    if (!call)
        return KRB5_PLUGIN_OP_NOTSUPP;
    struct call it = begun(name, context, auth, makes);
    krb5_error_code answer = call(context, auth, given, result, told);
    return kept(&it, answer, makes ? result : given);
}

#define PASSED_ON(NAME, MAKES)                                                                                 \
    krb5_error_code KRB5_CALLCONV NAME(krb5_context context, krb5_auth_context auth, const krb5_data *given,   \
                                       krb5_data *result, krb5_replay_data *told)                              \
    {                                                                                                          \
        return passed_on(#NAME, context, auth, given, result, told, MAKES);                                    \
    }

PASSED_ON(krb5_mk_safe, 1)
PASSED_ON(krb5_mk_priv, 1)
PASSED_ON(krb5_rd_safe, 0)
PASSED_ON(krb5_rd_priv, 0)
