// Times the proved stream beside OpenSSL's ChaCha20 on one text, in turns, and prints the ratios.
#include <openssl/evp.h>
#include <stdint.h>
#include <stdio.h>
#include <stdlib.h>
#include <string.h>
#include <time.h>

uint32_t seal_bench_stream(const uint8_t key[32], const uint8_t nonce[12], uint32_t counter, uint8_t *text, size_t size);

size_t seal_bench_seal(const uint8_t key[32], const uint8_t *header, size_t header_size, const uint8_t *text, size_t size, uint8_t *out, size_t room);
uint32_t seal_bench_open(const uint8_t key[32], const uint8_t *header, size_t header_size, const uint8_t *body, size_t size, uint8_t *out, size_t room);

static double now_ns(void) {
    struct timespec t;
    clock_gettime(CLOCK_MONOTONIC, &t);
    return t.tv_sec * 1e9 + t.tv_nsec;
}

enum { CALLS = 2000, TURNS = 301 };

static uint8_t key[32], iv[16], text[4096], header[47], sealed[4096 + 16];
static EVP_CIPHER_CTX *ctx;

static void check(int ok, const char *what) {
    if (!ok) {
        fprintf(stderr, "bench: %s failed\n", what);
        exit(1);
    }
}

static void ours(size_t size) {
    check(seal_bench_stream(key, iv + 4, 1, text, size) == 0, "seal_bench_stream");
}

// key, counter and nonce are set for each text, as a message with a key of its own asks
static void theirs_set(size_t size) {
    int n;
    check(EVP_EncryptInit_ex(ctx, NULL, NULL, key, iv), "EVP_EncryptInit_ex");
    check(EVP_EncryptUpdate(ctx, text, &n, text, (int)size), "EVP_EncryptUpdate");
}

// the stream alone: it goes on from where the text before ended
static void theirs_on(size_t size) {
    int n;
    check(EVP_EncryptUpdate(ctx, text, &n, text, (int)size), "EVP_EncryptUpdate");
}

static void sealing(size_t size) {
    check(seal_bench_seal(key, header, sizeof header, text, size, sealed, sizeof sealed) == size + 16, "seal_bench_seal");
}

static void opening(size_t size) {
    check(seal_bench_open(key, header, sizeof header, sealed, size + 16, text, sizeof text) == 0, "seal_bench_open");
}

static double timed(void (*f)(size_t), size_t size) {
    double t = now_ns();
    for (int i = 0; i < CALLS; i++) f(size);
    return (now_ns() - t) / CALLS;
}

static int by_value(const void *a, const void *b) {
    double d = *(const double *)a - *(const double *)b;
    return d < 0 ? -1 : d > 0;
}

static double median(double *v) {
    qsort(v, TURNS, sizeof *v, by_value);
    return v[TURNS / 2];
}

int main(int argc, char **argv) {
    size_t size = argc > 1 ? (size_t)atoi(argv[1]) : 1000;
    static double a[TURNS], b[TURNS], c[TURNS], d[TURNS], e[TURNS];
    uint8_t first[4096];
    check(size <= sizeof text, "the size");
    for (int i = 0; i < 32; i++) key[i] = (uint8_t)(7 * i + 1);
    for (int i = 4; i < 16; i++) iv[i] = (uint8_t)(i * i);
    iv[0] = 1;
    ctx = EVP_CIPHER_CTX_new();
    check(ctx && EVP_EncryptInit_ex(ctx, EVP_chacha20(), NULL, key, iv), "EVP_EncryptInit_ex");
    ours(size);
    memcpy(first, text, size);
    memset(text, 0, size);
    theirs_set(size);
    check(memcmp(first, text, size) == 0, "the comparison: the two streams differ, so it");
    for (int t = 0; t < TURNS; t++) {
        a[t] = timed(ours, size);
        b[t] = timed(theirs_set, size);
        c[t] = timed(theirs_on, size);
        d[t] = timed(sealing, size);
        e[t] = timed(opening, size);
    }
    double x = median(a), y = median(b), z = median(c);
    printf("%zu bytes: ours %.0f ns; OpenSSL %.0f ns with the key set, %.0f ns without\n", size, x, y, z);
    printf("ratio, above 1 is faster than OpenSSL: %.2f with the key set, %.2f without\n", y / x, z / x);
    printf("the whole of sealing %.0f ns, of opening %.0f ns\n", median(d), median(e));
    return 0;
}
