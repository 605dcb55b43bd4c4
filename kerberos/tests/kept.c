/* The handles that kerberos keeps for an auth context: how many are made, and that each
 * message is the one of the context as it is then, also after its key, its addresses or its number
 * changed, in threads and in a forked child. MIT's code reads what is made here, and makes what is
 * read here. The last line is 'kept: N checks held, M failed'. */
#define _GNU_SOURCE
#include "../../c/tests/check.h"
#include "../kept.h"
#include "both.h"

#include <pthread.h>
#include <sys/wait.h>
#include <unistd.h>

enum { THREADS = 8, MESSAGES = 500 };

/* A session: its two ends, one of which is MIT's. */
struct pair { krb5_context ctx; krb5_auth_context sender, receiver; int etype; };

static const uint8_t keys[2][32] = { "the first of two session keys...", "and the second of the two keys.." };

static struct pair pair_of(krb5_context ctx, int etype, int key)
{
    struct pair p = { ctx, NULL, NULL, etype };
    p.sender = end_of(ctx, etype, keys[key], 1, 255);
    p.receiver = end_of(ctx, etype, keys[key], 255, 1);
    return p;
}

static void end_pair(struct pair *p)
{
    krb5_auth_con_free(p->ctx, p->sender);
    krb5_auth_con_free(p->ctx, p->receiver);
}

/* One message of the kind, by a call of each side. */
static krb5_error_code pass(struct pair *p, enum call make, message_call *const *maker,
                            message_call *const *reader)
{
    static char text[] = "one text and another";
    krb5_data in = { KV5M_DATA, sizeof text, text }, made = { 0 }, read = { 0 };
    krb5_replay_data replay;
    krb5_error_code error = maker[make](p->ctx, p->sender, &in, &made, &replay);
    if (error != 0)
        return error;
    error = reader[make + 1](p->ctx, p->receiver, &made, &read, &replay);
    if (error == 0) {
        CHECK(read.length == sizeof text && memcmp(read.data, text, sizeof text) == 0);
        krb5_free_data_contents(p->ctx, &read);
    }
    krb5_free_data_contents(p->ctx, &made);
    return error;
}

/* So many handles are made by some messages of one kind, made and read here. */
static void counts(struct pair *p, enum call make, unsigned long sealers, unsigned long openers)
{
    unsigned long before = kept_made();
    for (int i = 0; i < 10; i++)
        CHECK(pass(p, make, ours, mit) == 0);
    CHECK(kept_made() == before + sealers);
    before = kept_made();
    for (int i = 0; i < 10; i++)
        CHECK(pass(p, make, mit, ours) == 0);
    CHECK(kept_made() == before + openers);
}

/* The sealer goes on in the other kind; an opener is of one. After MIT's code made messages the
 * number has changed, so the sealer is made anew. */
static void one_handle_for_a_key(krb5_context ctx, int etype)
{
    struct pair p = pair_of(ctx, etype, 0);
    unsigned long before;
    counts(&p, MK_SAFE, 1, 1);
    before = kept_made();
    CHECK(pass(&p, MK_PRIV, ours, mit) == 0 && kept_made() == before + 1);
    for (int i = 0; i < 10; i++)
        CHECK(pass(&p, i % 2 ? MK_SAFE : MK_PRIV, ours, mit) == 0);
    CHECK(kept_made() == before + 1);
    CHECK(pass(&p, MK_PRIV, ours, ours) == 0 && kept_made() == before + 2);
    CHECK(pass(&p, MK_SAFE, ours, ours) == 0 && kept_made() == before + 2);
    end_pair(&p);
}

static void use_subkey(struct pair *p, int key)
{
    uint8_t copy[32];
    krb5_keyblock block = { KV5M_KEYBLOCK, p->etype, p->etype == 17 ? 16u : 32u, copy };
    memcpy(copy, keys[key], sizeof copy);
    must(krb5_auth_con_setsendsubkey(p->ctx, p->sender, &block), "setsendsubkey");
    must(krb5_auth_con_setrecvsubkey(p->ctx, p->receiver, &block), "setrecvsubkey");
}

/* Another key, back and forth, at both ends. */
static void key_changes(krb5_context ctx, int etype)
{
    struct pair p = pair_of(ctx, etype, 0);
    for (int i = 0; i < 6; i++) {
        unsigned long before = kept_made();
        CHECK(pass(&p, MK_PRIV, ours, ours) == 0);
        CHECK(pass(&p, MK_PRIV, ours, ours) == 0);
        CHECK(kept_made() == before + 2);
        CHECK(pass(&p, MK_SAFE, ours, mit) == 0);
        CHECK(pass(&p, MK_PRIV, mit, ours) == 0);
        use_subkey(&p, i % 2 ? 0 : 1);
    }
    end_pair(&p);
}

/* A message under the key that was left isn't accepted. */
static void key_is_left(krb5_context ctx, int etype)
{
    struct pair p = pair_of(ctx, etype, 0), other = pair_of(ctx, etype, 1);
    CHECK(pass(&p, MK_PRIV, ours, ours) == 0);
    must(krb5_auth_con_setaddrs(ctx, other.sender, NULL, NULL), "setaddrs");
    krb5_auth_con_free(ctx, p.sender);
    p.sender = end_of(ctx, etype, keys[1], 1, 255);     /* its numbers begin at 0 again */
    CHECK(pass(&p, MK_PRIV, ours, ours) == KRB5KRB_AP_ERR_BAD_INTEGRITY);
    CHECK(pass(&p, MK_SAFE, ours, ours) == KRB5KRB_AP_ERR_MODIFIED);
    end_pair(&p);
    end_pair(&other);
}

static void set_hosts(krb5_context ctx, krb5_auth_context ac, uint8_t local, uint8_t remote)
{
    uint8_t here[4] = { 10, 0, 0, local }, there[4] = { 10, 0, 0, remote };
    krb5_address from = { KV5M_ADDRESS, ADDRTYPE_INET, 4, here };
    krb5_address to = { KV5M_ADDRESS, ADDRTYPE_INET, 4, there };
    must(krb5_auth_con_setaddrs(ctx, ac, &from, &to), "setaddrs");
}

/* MIT's reader demands the addresses that the sender has now. */
static void addresses_change(krb5_context ctx, int etype)
{
    struct pair p = pair_of(ctx, etype, 0);
    for (uint8_t host = 1; host < 5; host++) {
        set_hosts(ctx, p.sender, host, 255);
        CHECK(pass(&p, MK_SAFE, ours, mit) == (host == 1 ? 0 : KRB5KRB_AP_ERR_BADADDR));
        set_hosts(ctx, p.receiver, 255, host);
        if (host == 1)
            continue;
        krb5_auth_con_free(ctx, p.receiver);
        p.receiver = end_of(ctx, etype, keys[0], 255, host);
        krb5_auth_con_free(ctx, p.sender);
        p.sender = end_of(ctx, etype, keys[0], host, 255);
        CHECK(pass(&p, MK_SAFE, ours, mit) == 0);
    }
    end_pair(&p);
}

/* Contexts that come and go, often at one place: each has the handles of its own key. */
static void contexts_come_and_go(krb5_context ctx)
{
    for (int i = 0; i < 200; i++) {
        struct pair p = pair_of(ctx, 17 + i / 2 % 2, i % 2);
        unsigned long before = kept_made();
        CHECK(pass(&p, MK_PRIV, ours, mit) == 0);
        CHECK(pass(&p, MK_PRIV, mit, ours) == 0);
        CHECK(kept_made() == before + 2);
        end_pair(&p);
    }
}

/* Many contexts at once. */
static void many_contexts(krb5_context ctx)
{
    enum { MANY = 1000 };
    static struct pair pairs[MANY];
    unsigned long before;
    for (int i = 0; i < MANY; i++)
        pairs[i] = pair_of(ctx, 17 + i % 2, i / 2 % 2);
    before = kept_made();
    for (int turn = 0; turn < 3; turn++)
        for (int i = 0; i < MANY; i++)
            CHECK(pass(&pairs[i], MK_PRIV, ours, mit) == 0);
    CHECK(kept_made() == before + MANY);
    for (int i = 0; i < MANY; i++)
        end_pair(&pairs[i]);
}

static void *thread(void *arg)
{
    int number = *(int *)arg;
    krb5_context ctx = NULL;
    struct pair p;
    must(krb5_init_context(&ctx), "init_context");
    p = pair_of(ctx, 17 + number % 2, number / 2 % 2);
    for (int i = 0; i < MESSAGES; i++)
        CHECK(pass(&p, i % 3 ? MK_PRIV : MK_SAFE, ours, i % 2 ? ours : mit) == 0);
    end_pair(&p);
    krb5_free_context(ctx);
    return NULL;
}

static void threads(void)
{
    pthread_t all[THREADS];
    int numbers[THREADS];
    for (int i = 0; i < THREADS; i++) {
        numbers[i] = i;
        must(pthread_create(&all[i], NULL, thread, &numbers[i]), "pthread_create");
    }
    for (int i = 0; i < THREADS; i++)
        must(pthread_join(all[i], NULL), "pthread_join");
}

/* A child goes on with the context that it has a copy of, as MIT's code lets it. */
static void forked(krb5_context ctx)
{
    struct pair p = pair_of(ctx, 18, 0);
    int status = 0;
    pid_t child;
    CHECK(pass(&p, MK_PRIV, ours, ours) == 0);
    fflush(stdout);
    child = fork();
    if (child == 0)
        _exit(pass(&p, MK_PRIV, ours, ours) == 0 && pass(&p, MK_SAFE, ours, mit) == 0 ? 0 : 1);
    CHECK(child > 0 && waitpid(child, &status, 0) == child);
    CHECK(WIFEXITED(status) && WEXITSTATUS(status) == 0);
    CHECK(pass(&p, MK_PRIV, ours, ours) == 0);
    end_pair(&p);
}

int main(int count, char **words)
{
    krb5_context ctx = NULL;
    check_only(1, count, words);
    must(krb5_init_context(&ctx), "init_context");
    find_mit_calls();
    for (int etype = 17; etype <= 18; etype++) {
        RUN(one_handle_for_a_key(ctx, etype));
        RUN(key_changes(ctx, etype));
        RUN(key_is_left(ctx, etype));
        RUN(addresses_change(ctx, etype));
    }
    RUN(contexts_come_and_go(ctx));
    RUN(many_contexts(ctx));
    RUN(threads());
    RUN(forked(ctx));
    krb5_free_context(ctx);
    return check_status("kept");
}
