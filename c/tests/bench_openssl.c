/* Messages a second that OpenSSL's cipher and hash alone would allow, on one thread: bench_openssl
 * [SECONDS for each row, 0.3 where none are named].
 *
 * A KRB-SAFE is one HMAC with SHA-1, a KRB-PRIV that and AES in CBC mode, each of as many bytes as
 * the message has there: what is around the user data is about what tests/bench.c's messages have.
 * The ciphertext stealing, the encoding, keys and copies are left out, so no library over the same
 * code can do more. Printed is the best batch of 32 by the thread's processor time. OPENSSL_ia32cap
 * chooses which instructions it may use, as in openssl(7). */
#define OPENSSL_API_COMPAT 0x10100000L     /* HMAC_CTX is quicker than what took its place */
#include <openssl/evp.h>
#include <openssl/hmac.h>

#include <stdint.h>
#include <stdio.h>
#include <stdlib.h>
#include <string.h>
#include <time.h>

/* What a KRB-SAFE hashes and a KRB-PRIV enciphers beside the user data: the fields and their headers,
 * and the confounder. */
enum { BATCH = 32, LONGEST = 60000, OF_SAFE = 85, OF_PRIV = 16 + 55, BLOCK = 16 };

static uint8_t text[LONGEST + OF_SAFE + BLOCK], made[sizeof text], zeros[BLOCK], code[EVP_MAX_MD_SIZE];

struct end {
    int is_private;
    int etype;
    size_t len;
    EVP_CIPHER_CTX *encrypts, *decrypts;
    HMAC_CTX *start, *hash;
};

static void must(int good, const char *what)
{
    if (!good) {
        fprintf(stderr, "bench_openssl: %s failed\n", what);
        exit(1);
    }
}

static double processor_time(void)
{
    struct timespec t;
    clock_gettime(CLOCK_THREAD_CPUTIME_ID, &t);
    return (double)t.tv_sec + (double)t.tv_nsec * 1e-9;
}

static EVP_CIPHER_CTX *cipher_of(int etype, int encrypts)
{
    EVP_CIPHER_CTX *c = EVP_CIPHER_CTX_new();
    must(c != NULL, "EVP_CIPHER_CTX_new");
    must(EVP_CipherInit_ex(c, etype == 17 ? EVP_aes_128_cbc() : EVP_aes_256_cbc(), NULL, text, zeros,
                           encrypts), "EVP_CipherInit_ex");
    EVP_CIPHER_CTX_set_padding(c, 0);
    return c;
}

static struct end end_of(int is_private, int etype, size_t len)
{
    struct end e = { is_private, etype, len, cipher_of(etype, 1), cipher_of(etype, 0), HMAC_CTX_new(),
                     HMAC_CTX_new() };
    must(e.start != NULL && e.hash != NULL, "HMAC_CTX_new");
    must(HMAC_Init_ex(e.start, text, etype == 17 ? 16 : 32, EVP_sha1(), NULL), "HMAC_Init_ex");
    return e;
}

static void free_end(struct end *e)
{
    EVP_CIPHER_CTX_free(e->encrypts);
    EVP_CIPHER_CTX_free(e->decrypts);
    HMAC_CTX_free(e->start);
    HMAC_CTX_free(e->hash);
}

static void hash(struct end *e, size_t len)
{
    unsigned size;
    must(HMAC_CTX_copy(e->hash, e->start) && HMAC_Update(e->hash, text, len)
             && HMAC_Final(e->hash, code, &size), "HMAC");
}

static void run_cipher(EVP_CIPHER_CTX *c, size_t len)
{
    int size;
    must(EVP_CipherInit_ex(c, NULL, NULL, NULL, zeros, -1)
             && EVP_CipherUpdate(c, made, &size, text, (int)((len + BLOCK - 1) / BLOCK * BLOCK)), "AES");
}

/* One message, made or read. */
static void one(struct end *e, EVP_CIPHER_CTX *c)
{
    hash(e, e->len + (e->is_private ? OF_PRIV : OF_SAFE));
    if (e->is_private)
        run_cipher(c, e->len + OF_PRIV);
}

static void measure(double *least, struct end *e, EVP_CIPHER_CTX *c)
{
    double start = processor_time(), taken;
    for (int i = 0; i < BATCH; i++)
        one(e, c);
    taken = processor_time() - start;
    if (taken < *least)
        *least = taken;
}

static void row(int is_private, int etype, size_t len, double seconds)
{
    struct end e = end_of(is_private, etype, len);
    double to_make = 1e9, to_read = 1e9, start = processor_time();
    while (processor_time() - start < seconds) {
        measure(&to_make, &e, e.encrypts);
        measure(&to_read, &e, e.decrypts);
    }
    printf("%s %d %6zu  %9.0f %9.0f\n", is_private ? "priv" : "safe", etype, len, BATCH / to_make,
           BATCH / to_read);
    free_end(&e);
}

int main(int argc, char **argv)
{
    static const size_t lengths[] = { 64, 1024, LONGEST };
    double seconds = argc > 1 ? atof(argv[1]) : 0.3;
    memset(text, 0x5a, sizeof text);
    puts("Messages a second of one thread by OpenSSL's cipher and hash alone.");
    puts("mode ty  bytes       made      read");
    for (int is_private = 0; is_private <= 1; is_private++)
        for (int etype = 17; etype <= 18; etype++)
            for (int i = 0; i < 3; i++)
                row(is_private, etype, lengths[i], seconds);
    return 0;
}
