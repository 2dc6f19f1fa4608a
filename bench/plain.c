/* SHA-256 and SHAKE256 in plain C, written from FIPS 180-4 and FIPS 202 with no thought of speed beyond good sense. */
#include "work.h"

static const uint32_t K[64] = {
    0x428a2f98, 0x71374491, 0xb5c0fbcf, 0xe9b5dba5, 0x3956c25b, 0x59f111f1, 0x923f82a4, 0xab1c5ed5,
    0xd807aa98, 0x12835b01, 0x243185be, 0x550c7dc3, 0x72be5d74, 0x80deb1fe, 0x9bdc06a7, 0xc19bf174,
    0xe49b69c1, 0xefbe4786, 0x0fc19dc6, 0x240ca1cc, 0x2de92c6f, 0x4a7484aa, 0x5cb0a9dc, 0x76f988da,
    0x983e5152, 0xa831c66d, 0xb00327c8, 0xbf597fc7, 0xc6e00bf3, 0xd5a79147, 0x06ca6351, 0x14292967,
    0x27b70a85, 0x2e1b2138, 0x4d2c6dfc, 0x53380d13, 0x650a7354, 0x766a0abb, 0x81c2c92e, 0x92722c85,
    0xa2bfe8a1, 0xa81a664b, 0xc24b8b70, 0xc76c51a3, 0xd192e819, 0xd6990624, 0xf40e3585, 0x106aa070,
    0x19a4c116, 0x1e376c08, 0x2748774c, 0x34b0bcb5, 0x391c0cb3, 0x4ed8aa4a, 0x5b9cca4f, 0x682e6ff3,
    0x748f82ee, 0x78a5636f, 0x84c87814, 0x8cc70208, 0x90befffa, 0xa4506ceb, 0xbef9a3f7, 0xc67178f2};

static uint32_t rotr(uint32_t x, int n) { return x >> n | x << (32 - n); }

static void compress(uint32_t hash[8], const uint8_t *block) {
    uint32_t w[64];
    for (int t = 0; t < 16; t++)
        w[t] = (uint32_t)block[4 * t] << 24 | (uint32_t)block[4 * t + 1] << 16 | (uint32_t)block[4 * t + 2] << 8 | block[4 * t + 3];
    for (int t = 16; t < 64; t++) {
        uint32_t s0 = rotr(w[t - 15], 7) ^ rotr(w[t - 15], 18) ^ w[t - 15] >> 3;
        uint32_t s1 = rotr(w[t - 2], 17) ^ rotr(w[t - 2], 19) ^ w[t - 2] >> 10;
        w[t] = s1 + w[t - 7] + s0 + w[t - 16];
    }
    uint32_t a = hash[0], b = hash[1], c = hash[2], d = hash[3], e = hash[4], f = hash[5], g = hash[6], h = hash[7];
    for (int t = 0; t < 64; t++) {
        uint32_t t1 = h + (rotr(e, 6) ^ rotr(e, 11) ^ rotr(e, 25)) + ((e & f) ^ (~e & g)) + K[t] + w[t];
        uint32_t t2 = (rotr(a, 2) ^ rotr(a, 13) ^ rotr(a, 22)) + ((a & b) ^ (a & c) ^ (b & c));
        h = g, g = f, f = e, e = d + t1, d = c, c = b, b = a, a = t1 + t2;
    }
    hash[0] += a, hash[1] += b, hash[2] += c, hash[3] += d, hash[4] += e, hash[5] += f, hash[6] += g, hash[7] += h;
}

static void sha256(uint8_t digest[32], const uint8_t *message, size_t len) {
    uint32_t hash[8] = {0x6a09e667, 0xbb67ae85, 0x3c6ef372, 0xa54ff53a, 0x510e527f, 0x9b05688c, 0x1f83d9ab, 0x5be0cd19};
    size_t rest = len % 64;
    for (size_t i = 0; i + 64 <= len; i += 64) compress(hash, message + i);
    uint8_t last[128] = {0};
    memcpy(last, message + len - rest, rest);
    last[rest] = 0x80;
    size_t end = rest < 56 ? 64 : 128;
    for (int i = 0; i < 8; i++) last[end - 8 + i] = (uint64_t)len * 8 >> (56 - 8 * i);
    for (size_t i = 0; i < end; i += 64) compress(hash, last + i);
    for (int i = 0; i < 32; i++) digest[i] = hash[i / 4] >> (24 - 8 * (i % 4));
}

static const uint64_t RC[24] = {
    0x0000000000000001, 0x0000000000008082, 0x800000000000808a, 0x8000000080008000, 0x000000000000808b, 0x0000000080000001,
    0x8000000080008081, 0x8000000000008009, 0x000000000000008a, 0x0000000000000088, 0x0000000080008009, 0x000000008000000a,
    0x000000008000808b, 0x800000000000008b, 0x8000000000008089, 0x8000000000008003, 0x8000000000008002, 0x8000000000000080,
    0x000000000000800a, 0x800000008000000a, 0x8000000080008081, 0x8000000000008080, 0x0000000080000001, 0x8000000080008008};

static uint64_t rotl(uint64_t x, int n) { return n ? x << n | x >> (64 - n) : x; }

static const int OFFSET[25] = {0, 1, 62, 28, 27, 36, 44, 6, 55, 20, 3, 10, 43, 25, 39, 41, 45, 15, 21, 8, 18, 2, 61, 56, 14};

static void permute(uint64_t a[25]) {
    for (int t = 0; t < 24; t++) {
        uint64_t c[5], d[5], b[25];
#pragma GCC unroll 5
        for (int x = 0; x < 5; x++) c[x] = a[x] ^ a[x + 5] ^ a[x + 10] ^ a[x + 15] ^ a[x + 20];
#pragma GCC unroll 5
        for (int x = 0; x < 5; x++) d[x] = c[(x + 4) % 5] ^ rotl(c[(x + 1) % 5], 1);
#pragma GCC unroll 5
        for (int y = 0; y < 5; y++)
#pragma GCC unroll 5
            for (int x = 0; x < 5; x++) {
                int from = 5 * x + (x + 3 * y) % 5;
                b[5 * y + x] = rotl(a[from] ^ d[from % 5], OFFSET[from]);
            }
#pragma GCC unroll 5
        for (int y = 0; y < 5; y++)
#pragma GCC unroll 5
            for (int x = 0; x < 5; x++) a[5 * y + x] = b[5 * y + x] ^ (~b[5 * y + (x + 1) % 5] & b[5 * y + (x + 2) % 5]);
        a[0] ^= RC[t];
    }
}

static void absorb(uint64_t a[25], const uint8_t *block) {
    for (int t = 0; t < 17; t++) {
        uint64_t lane = 0;
        for (int i = 7; i >= 0; i--) lane = lane << 8 | block[8 * t + i];
        a[t] ^= lane;
    }
    permute(a);
}

static void shake256(uint8_t digest[32], const uint8_t *message, size_t len) {
    uint64_t a[25] = {0};
    size_t rest = len % 136;
    for (size_t i = 0; i + 136 <= len; i += 136) absorb(a, message + i);
    uint8_t last[136] = {0};
    memcpy(last, message + len - rest, rest);
    last[rest] = 0x1f;
    last[135] ^= 0x80;
    absorb(a, last);
    for (int i = 0; i < 32; i++) digest[i] = a[i / 8] >> (8 * (i % 8));
}

int main(int argc, char **argv) {
    measure(argc, argv, "sha256", sha256);
    measure(argc, argv, "shake256", shake256);
}
