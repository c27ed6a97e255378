/* AES-128 byte by byte, as FIPS 197 writes it: what the speed of the crate `aes` is held against.
   Enciphers the number of blocks given, one after another (chain) or each by itself (apart). */
#include <stdint.h>
#include <stdio.h>
#include <stdlib.h>
#include <string.h>

static uint8_t sbox[256];

static uint8_t xtime(uint8_t b) { return (uint8_t)((b << 1) ^ ((b >> 7) * 0x1b)); }

static uint8_t mul(uint8_t a, uint8_t b) {
    uint8_t r = 0;
    for (; a; a >>= 1, b = xtime(b))
        if (a & 1) r ^= b;
    return r;
}

static void make_sbox(void) {
    for (int i = 0; i < 256; i++) {
        uint8_t inverse = 0;
        for (int j = 1; j < 256; j++)
            if (mul((uint8_t)i, (uint8_t)j) == 1) inverse = (uint8_t)j;
        uint8_t s = inverse;
        for (int k = 1; k < 5; k++) s ^= (uint8_t)((inverse << k) | (inverse >> (8 - k)));
        sbox[i] = s ^ 0x63;
    }
}

static void expand(const uint8_t key[16], uint8_t w[176]) {
    uint8_t rcon = 1;
    memcpy(w, key, 16);
    for (int i = 16; i < 176; i += 4) {
        uint8_t t[4];
        memcpy(t, w + i - 4, 4);
        if (i % 16 == 0) {
            uint8_t first = t[0];
            t[0] = sbox[t[1]] ^ rcon;
            t[1] = sbox[t[2]];
            t[2] = sbox[t[3]];
            t[3] = sbox[first];
            rcon = xtime(rcon);
        }
        for (int k = 0; k < 4; k++) w[i + k] = w[i + k - 16] ^ t[k];
    }
}

__attribute__((noinline)) static void encipher(const uint8_t w[176], const uint8_t in[16], uint8_t out[16]) {
    uint8_t s[16], t[16];
    for (int i = 0; i < 16; i++) s[i] = in[i] ^ w[i];
    for (int n = 1; n < 10; n++) {
        for (int i = 0; i < 16; i++) t[i] = sbox[s[(5 * i) & 15]];
        for (int c = 0; c < 16; c += 4) {
            uint8_t a = t[c], b = t[c + 1], d = t[c + 2], e = t[c + 3];
            s[c] = xtime(a) ^ xtime(b) ^ b ^ d ^ e;
            s[c + 1] = a ^ xtime(b) ^ xtime(d) ^ d ^ e;
            s[c + 2] = a ^ b ^ xtime(d) ^ xtime(e) ^ e;
            s[c + 3] = xtime(a) ^ a ^ b ^ d ^ xtime(e);
        }
        for (int i = 0; i < 16; i++) s[i] ^= w[16 * n + i];
    }
    for (int i = 0; i < 16; i++) out[i] = sbox[s[(5 * i) & 15]] ^ w[160 + i];
}

int main(int argc, char **argv) {
    if (argc != 3) return 2;
    int chain = strcmp(argv[1], "chain") == 0;
    uint32_t count = (uint32_t)strtoul(argv[2], 0, 10);
    uint8_t key[16], w[176], block[16] = {0}, sum = 0;
    make_sbox();
    for (int i = 0; i < 16; i++) key[i] = (uint8_t)i;
    expand(key, w);
    if (chain) {
        for (uint32_t n = 0; n < count; n++) encipher(w, block, block);
        sum = block[0];
    } else {
        for (uint32_t n = 0; n < count; n++) {
            uint8_t out[16];
            for (int i = 0; i < 4; i++) block[12 + i] = (uint8_t)(n >> (24 - 8 * i));
            encipher(w, block, out);
            sum ^= out[0] ^ out[5] ^ out[10] ^ out[15];
        }
    }
    printf("%02x\n", sum);
    return 0;
}
