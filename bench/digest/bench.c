// Times the proved digests beside OpenSSL's in one run, turn by turn, and prints how many times as fast they are.
#include <openssl/evp.h>
#include <openssl/hmac.h>
#include <openssl/sha.h>
#include <stdbool.h>
#include <stdint.h>
#include <stdio.h>
#include <stdlib.h>
#include <string.h>
#include <time.h>

bool digest_sha256(const uint8_t *message, size_t len, uint8_t *out, size_t out_len);
bool digest_hmac(const uint8_t *key, size_t key_len, const uint8_t *message, size_t len, uint8_t *out, size_t out_len);

enum { TURNS = 401, DIGEST = 32 };

static uint8_t key[32], message[16384];

static void ours_hash(size_t len, uint8_t *out) { digest_sha256(message, len, out, DIGEST); }
static void ours_hmac(size_t len, uint8_t *out) { digest_hmac(key, sizeof key, message, len, out, DIGEST); }

static void theirs_hash(size_t len, uint8_t *out) {
    SHA256_CTX state;
    SHA256_Init(&state);
    SHA256_Update(&state, message, len);
    SHA256_Final(out, &state);
}

static void theirs_hmac(size_t len, uint8_t *out) {
    unsigned size = DIGEST;
    HMAC(EVP_sha256(), key, sizeof key, message, len, out, &size);
}

// An HMAC of OpenSSL's bare hash calls, without what its HMAC call looks up each time.
static void their_pads(size_t len, uint8_t *out) {
    uint8_t pad[64];
    SHA256_CTX state;
    memset(pad, 0x36, sizeof pad);
    for (size_t i = 0; i < sizeof key; i++) pad[i] ^= key[i];
    SHA256_Init(&state);
    SHA256_Update(&state, pad, sizeof pad);
    SHA256_Update(&state, message, len);
    SHA256_Final(out, &state);
    for (size_t i = 0; i < sizeof pad; i++) pad[i] ^= 0x36 ^ 0x5c;
    SHA256_Init(&state);
    SHA256_Update(&state, pad, sizeof pad);
    SHA256_Update(&state, out, DIGEST);
    SHA256_Final(out, &state);
}

static double seconds(void (*call)(size_t, uint8_t *), size_t len, int calls, uint8_t *out) {
    struct timespec from, to;
    clock_gettime(CLOCK_THREAD_CPUTIME_ID, &from);
    for (int i = 0; i < calls; i++) call(len, out);
    clock_gettime(CLOCK_THREAD_CPUTIME_ID, &to);
    return (double)(to.tv_sec - from.tv_sec) + 1e-9 * (double)(to.tv_nsec - from.tv_nsec);
}

static int order(const void *a, const void *b) {
    double x = *(const double *)a, y = *(const double *)b;
    return (x > y) - (x < y);
}

// The middle of the ratios of many short turns.
static void compare(const char *name, void (*ours)(size_t, uint8_t *), void (*theirs)(size_t, uint8_t *), size_t len, int calls) {
    static double ratio[TURNS];
    uint8_t a[DIGEST], b[DIGEST];
    for (int i = 0; i < TURNS; i++) {
        double mine = seconds(ours, len, calls, a);
        double other = seconds(theirs, len, calls, b);
        ratio[i] = other / mine;
    }
    if (memcmp(a, b, DIGEST) != 0) {
        printf("%s: the results differ\n", name);
        exit(1);
    }
    qsort(ratio, TURNS, sizeof *ratio, order);
    printf("%-44s %.2f (%.2f to %.2f)\n", name, ratio[TURNS / 2], ratio[TURNS / 10], ratio[TURNS - 1 - TURNS / 10]);
}

int main(void) {
    for (size_t i = 0; i < sizeof message; i++) message[i] = (uint8_t)(i * 7 + 1);
    for (size_t i = 0; i < sizeof key; i++) key[i] = (uint8_t)(i * 11 + 3);
    puts("speed beside OpenSSL's (1 is as fast; the middle of 401 turns, and from the tenth to the ninetieth in a hundred)");
    compare("SHA-256 of 1 KiB", ours_hash, theirs_hash, 1024, 200);
    compare("SHA-256 of 16 KiB", ours_hash, theirs_hash, 16384, 16);
    compare("HMAC of 1 byte, beside HMAC()", ours_hmac, theirs_hmac, 1, 500);
    compare("HMAC of 1 byte, beside SHA256_Update()", ours_hmac, their_pads, 1, 500);
    return 0;
}
