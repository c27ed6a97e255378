/* Keyed hashes and expanders in plain C, for timing: whole blocks only, POLYVAL without its length block, CMAC without its subkeys. */
#define main aes_main
#include "bench-aes.c"
#undef main
#include <time.h>

static double now(void) {
    struct timespec t;
    clock_gettime(CLOCK_PROCESS_CPUTIME_ID, &t);
    return (double)t.tv_sec * 1e9 + (double)t.tv_nsec;
}

/* POLYVAL bit by bit: 128 halvings of the key, each added under the bit of the accumulator. */
static void plain_polyval(const uint8_t *key, const uint8_t *s, size_t len, uint8_t out[16]) {
    uint64_t a = 0, b = 0, h0, h1;
    memcpy(&h0, key, 8);
    memcpy(&h1, key + 8, 8);
    for (size_t i = 0; i + 16 <= len; i += 16) {
        uint64_t x0, x1, v0 = h0, v1 = h1, r0 = 0, r1 = 0;
        memcpy(&x0, s + i, 8);
        memcpy(&x1, s + i + 8, 8);
        a ^= x0;
        b ^= x1;
        for (int k = 127; k >= 0; k--) {
            uint64_t bit = 0 - (((k < 64 ? a : b) >> (k & 63)) & 1);
            uint64_t low = 0 - (v0 & 1);
            v0 = (v0 >> 1) | (v1 << 63);
            v1 = (v1 >> 1) ^ (low & 0xe100000000000000u);
            r0 ^= v0 & bit;
            r1 ^= v1 & bit;
        }
        a = r0;
        b = r1;
    }
    memcpy(out, &a, 8);
    memcpy(out + 8, &b, 8);
}

static void plain_cbc_mac(const uint8_t *key, const uint8_t *s, size_t len, uint8_t out[16]) {
    uint8_t w[176];
    expand(key, w);
    memset(out, 0, 16);
    for (size_t i = 0; i + 16 <= len; i += 16) {
        for (int k = 0; k < 16; k++) out[k] ^= s[i + k];
        encipher(w, out, out);
    }
}

static void plain_counter(const uint8_t *key, const uint8_t *input, uint8_t *s, size_t len) {
    uint8_t w[176], c[16], o[16];
    expand(key, w);
    for (size_t i = 0; i + 16 <= len; i += 16) {
        uint32_t j = (uint32_t)(i >> 4);
        memcpy(c, input, 16);
        c[15] ^= (uint8_t)j;
        c[14] ^= (uint8_t)(j >> 8);
        encipher(w, c, o);
        for (int k = 0; k < 16; k++) s[i + k] ^= o[k];
    }
}

#define TURN(v, n) (((v) << (n)) | ((v) >> (32 - (n))))
#define QR(a, b, c, d) a += b; d = TURN(d ^ a, 16); c += d; b = TURN(b ^ c, 12); a += b; d = TURN(d ^ a, 8); c += d; b = TURN(b ^ c, 7);

static void plain_chacha(const uint8_t *key, const uint8_t *input, uint8_t *s, size_t len) {
    uint32_t start[16] = {0x61707865, 0x3320646e, 0x79622d32, 0x6b206574};
    memcpy(start + 4, key, 32);
    memcpy(start + 13, input, 12);
    for (size_t i = 0; i + 64 <= len; i += 64) {
        uint32_t x[16];
        start[12] = (uint32_t)(i >> 6);
        memcpy(x, start, 64);
        for (int r = 0; r < 10; r++) {
            QR(x[0], x[4], x[8], x[12]) QR(x[1], x[5], x[9], x[13]) QR(x[2], x[6], x[10], x[14]) QR(x[3], x[7], x[11], x[15])
            QR(x[0], x[5], x[10], x[15]) QR(x[1], x[6], x[11], x[12]) QR(x[2], x[7], x[8], x[13]) QR(x[3], x[4], x[9], x[14])
        }
        for (int k = 0; k < 16; k++) {
            uint32_t v = x[k] + start[k];
            for (int q = 0; q < 4; q++) s[i + 4 * k + q] ^= (uint8_t)(v >> (8 * q));
        }
    }
}
