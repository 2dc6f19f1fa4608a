/* The work that crates/bench measures, for a hash given as a function of a message, and how it is timed. */
#include <stdint.h>
#include <stdio.h>
#include <stdlib.h>
#include <string.h>
#include <time.h>

typedef void hash_fn(uint8_t digest[32], const uint8_t *message, size_t len);

static double seconds(void) {
    struct timespec t;
    clock_gettime(CLOCK_MONOTONIC, &t);
    return t.tv_sec + t.tv_nsec * 1e-9;
}

static void show(const char *name, const char *measure, double figure, const uint8_t digest[32]) {
    printf("%s %s", name, measure);
    printf(" ");
    for (int i = 0; i < 32; i++) printf("%02x", digest[i]);
    printf("\n");
    fprintf(stderr, "%s %s %.0f\n", name, measure, figure);
}

/* One message of `pieces` times 16 KiB. */
static void bulk(const char *name, hash_fn *hash, size_t pieces) {
    enum { PIECE = 16384 };
    uint8_t *message = malloc(pieces * PIECE + 1), digest[32];
    if (!message) exit(1);
    for (size_t p = 0; p < pieces; p++) {
        for (size_t i = 0; i < PIECE; i++) message[p * PIECE + i] = i % 251;
        for (int i = 0; i < 8; i++) message[p * PIECE + i] = (uint64_t)p >> (56 - 8 * i);
    }
    double start = seconds();
    hash(digest, message, pieces * PIECE);
    double took = seconds() - start;
    show(name, "bulk_bytes", pieces * PIECE / took, digest);
    free(message);
}

/* A chain of messages of 55 bytes. */
static void single(const char *name, hash_fn *hash, size_t count) {
    uint8_t message[64], digest[32] = {0};
    memset(message, 0x5a, sizeof message);
    double start = seconds();
    for (size_t round = 0; round < count; round++) {
        memcpy(message, digest, 32);
        for (int i = 0; i < 8; i++) message[32 + i] = (uint64_t)round >> (56 - 8 * i);
        message[40] = 0;
        hash(digest, message, 55);
    }
    double took = seconds() - start;
    show(name, "single", count / took, digest);
}

static void measure(int argc, char **argv, const char *name, hash_fn *hash) {
    size_t pieces = argc > 1 ? strtoul(argv[1], 0, 10) : 4;
    size_t hashes = argc > 2 ? strtoul(argv[2], 0, 10) : 500;
    bulk(name, hash, pieces);
    single(name, hash, hashes);
}
