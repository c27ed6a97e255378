/* A second implementation, to hold the library against: records as docs/FORMAT.md has them, by OpenSSL's AES, CMAC and ChaCha20, and POLYVAL
   written out from RFC 8452. It shares nothing with the library. Link -lcrypto. */
#ifndef REFERENCE_H
#define REFERENCE_H

#include <openssl/evp.h>
#include <openssl/params.h>
#include <stdint.h>
#include <stdio.h>
#include <stdlib.h>
#include <string.h>

#define REFERENCE_MOST 5000

typedef struct {
    uint8_t pile;
    const uint8_t *hash_key;
    const uint8_t *expander_key;
    size_t expander_key_length;
    const uint8_t *header_key;
    const uint8_t *name;
} reference_line;

static void reference_must(int held) {
    if (!held) {
        fprintf(stderr, "reference: OpenSSL failed\n");
        exit(1);
    }
}

static uint32_t reference_word(const uint8_t *p) { return p[0] | (uint32_t)p[1] << 8 | (uint32_t)p[2] << 16 | (uint32_t)p[3] << 24; }

/* A field element: bit i of word k is the coefficient of x^(64k + i). */
typedef struct { uint64_t word[2]; } element;

static element element_of(const uint8_t *p) {
    element e = {{0, 0}};
    for (int i = 0; i < 16; i++) e.word[i / 8] |= (uint64_t)p[i] << (8 * (i % 8));
    return e;
}

/* a times b modulo x^128 + x^127 + x^126 + x^121 + 1, from the highest coefficient of a down. */
static element element_times(element a, element b) {
    element r = {{0, 0}};
    for (int i = 127; i >= 0; i--) {
        uint64_t top = r.word[1] >> 63;
        r.word[1] = r.word[1] << 1 | r.word[0] >> 63;
        r.word[0] <<= 1;
        if (top) {
            r.word[1] ^= (uint64_t)1 << 63 | (uint64_t)1 << 62 | (uint64_t)1 << 57;
            r.word[0] ^= 1;
        }
        if (a.word[i / 64] >> (i % 64) & 1) {
            r.word[0] ^= b.word[0];
            r.word[1] ^= b.word[1];
        }
    }
    return r;
}

static void reference_polyval(const uint8_t *key, const uint8_t *s, size_t length, uint8_t out[16]) {
    /* RFC 8452, section 3: x^-128 is x^127 + x^124 + x^121 + x^114 + 1; the key is multiplied by it once. */
    const element inverse = {{1, (uint64_t)1 << 63 | (uint64_t)1 << 60 | (uint64_t)1 << 57 | (uint64_t)1 << 50}};
    element h = element_times(element_of(key), inverse), sum = {{0, 0}};
    size_t blocks = (length + 15) / 16;
    for (size_t i = 0; i <= blocks; i++) {
        uint8_t block[16] = {0};
        if (i < blocks) {
            memcpy(block, s + 16 * i, length - 16 * i < 16 ? length - 16 * i : 16);
        } else {
            for (int k = 0; k < 8; k++) block[k] = (uint8_t)((uint64_t)length * 8 >> (8 * k));
        }
        element x = element_of(block);
        sum.word[0] ^= x.word[0];
        sum.word[1] ^= x.word[1];
        sum = element_times(sum, h);
    }
    for (int i = 0; i < 16; i++) out[i] = (uint8_t)(sum.word[i / 8] >> (8 * (i % 8)));
}

static void reference_cmac(const uint8_t *key, const uint8_t *s, size_t length, uint8_t out[16]) {
    static EVP_MAC *mac;
    static EVP_MAC_CTX *context;
    size_t got = 0;
    char cipher[] = "AES-128-CBC";
    OSSL_PARAM parameters[] = {OSSL_PARAM_construct_utf8_string("cipher", cipher, 0), OSSL_PARAM_construct_end()};
    if (!mac) {
        mac = EVP_MAC_fetch(NULL, "CMAC", NULL);
        context = EVP_MAC_CTX_new(mac);
        reference_must(context != NULL);
    }
    reference_must(EVP_MAC_init(context, key, 16, parameters));
    reference_must(EVP_MAC_update(context, s, length));
    reference_must(EVP_MAC_final(context, out, &got, 16) && got == 16);
}

static void reference_aes(const uint8_t *key, size_t key_length, const uint8_t *in, size_t length, uint8_t *out) {
    static EVP_CIPHER_CTX *context;
    int got = 0;
    if (!context) context = EVP_CIPHER_CTX_new();
    reference_must(EVP_EncryptInit_ex(context, key_length == 16 ? EVP_aes_128_ecb() : EVP_aes_256_ecb(), NULL, key, NULL));
    EVP_CIPHER_CTX_set_padding(context, 0);
    reference_must(EVP_EncryptUpdate(context, out, &got, in, (int)length) && (size_t)got == length);
}

/* ChaCha20 of zero bytes; OpenSSL's iv is the counter and the nonce. */
static void reference_chacha(const uint8_t *key, const uint8_t iv[16], size_t length, uint8_t *out) {
    static EVP_CIPHER_CTX *context;
    static const uint8_t zero[REFERENCE_MOST];
    int got = 0;
    if (!context) context = EVP_CIPHER_CTX_new();
    reference_must(EVP_EncryptInit_ex(context, EVP_chacha20(), NULL, key, iv));
    reference_must(EVP_EncryptUpdate(context, out, &got, zero, (int)length) && (size_t)got == length);
}

static void reference_hash(uint8_t pile, const uint8_t *key, const uint8_t *s, size_t length, uint8_t out[16]) {
    if (pile == 'a') reference_polyval(key, s, length, out);
    else reference_cmac(key, s, length, out);
}

/* Adds the expander's sequence to s. */
static void reference_expand(const reference_line *l, uint8_t domain, const uint8_t tweak[8], const uint8_t input[16], uint8_t *s, size_t length) {
    uint8_t out[REFERENCE_MOST];
    if (l->pile == 'a') {
        uint8_t counters[REFERENCE_MOST], mask[16] = {0}, first[16] = {0};
        size_t blocks = (length + 15) / 16;
        first[0] = domain;
        memcpy(first + 1, tweak, 8);
        reference_aes(l->expander_key, l->expander_key_length, first, 16, mask);
        for (size_t j = 0; j < blocks; j++) {
            for (int i = 0; i < 16; i++) counters[16 * j + i] = input[i] ^ mask[i];
            for (int i = 0; i < 4; i++) counters[16 * j + 12 + i] ^= (uint8_t)(j >> (24 - 8 * i));
        }
        reference_aes(l->expander_key, l->expander_key_length, counters, 16 * blocks, out);
    } else {
        /* The subkey is what the rounds leave in words 0 to 3 and 12 to 15: a block of ChaCha20 less its starting state. */
        static const uint32_t constants[4] = {0x61707865, 0x3320646e, 0x79622d32, 0x6b206574};
        uint8_t block[64], subkey[32], iv[16] = {0};
        reference_chacha(l->expander_key, input, 64, block);
        for (int i = 0; i < 8; i++) {
            int at = i < 4 ? i : i + 8;
            uint32_t v = reference_word(block + 4 * at) - (i < 4 ? constants[i] : reference_word(input + 4 * (i - 4)));
            for (int k = 0; k < 4; k++) subkey[4 * i + k] = (uint8_t)(v >> (8 * k));
        }
        iv[4] = domain;
        memcpy(iv + 8, tweak, 8);
        reference_chacha(subkey, iv, length, out);
    }
    for (size_t i = 0; i < length; i++) s[i] ^= out[i];
}

static void reference_add_hash(const reference_line *l, const uint8_t *s, size_t length, uint8_t *to) {
    uint8_t h[16];
    reference_hash(l->pile, l->hash_key, s, length, h);
    for (int i = 0; i < 16; i++) to[i] ^= h[i];
}

static void reference_encipher(const reference_line *l, const uint8_t tweak[8], uint8_t *s, size_t length) {
    uint8_t input[16];
    size_t end = length - 16;
    reference_add_hash(l, s + 16, end, s);
    memcpy(input, s, 16);
    reference_expand(l, 1, tweak, input, s + end, 16);
    memcpy(input, s + end, 16);
    reference_expand(l, 2, tweak, input, s, end);
    reference_add_hash(l, s, end, s + end);
}

static void reference_decipher(const reference_line *l, const uint8_t tweak[8], uint8_t *s, size_t length) {
    uint8_t input[16];
    size_t end = length - 16;
    reference_add_hash(l, s, end, s + end);
    memcpy(input, s + end, 16);
    reference_expand(l, 2, tweak, input, s, end);
    memcpy(input, s, 16);
    reference_expand(l, 1, tweak, input, s + end, 16);
    reference_add_hash(l, s + 16, end, s);
}

static void reference_tag(const reference_line *l, const uint8_t *header, size_t header_length, uint8_t out[16]) {
    uint8_t both[8 + 256];
    memcpy(both, l->name, 8);
    if (header_length) memcpy(both + 8, header, header_length);
    reference_hash(l->pile, l->header_key, both, 8 + header_length, out);
}

/* The record of a text of 16 to 4,096 bytes, 24 bytes longer. */
static void reference_seal(const reference_line *l, uint64_t number, const uint8_t *header, size_t header_length, const uint8_t *text, size_t length, uint8_t *record) {
    for (int i = 0; i < 8; i++) record[i] = (uint8_t)(number >> (56 - 8 * i));
    reference_tag(l, header, header_length, record + 8);
    memcpy(record + 24, text, length);
    reference_encipher(l, record, record + 8, length + 16);
}

/* Whether a record of an admitted length is a sealing; `text` is then its text. */
static int reference_open(const reference_line *l, const uint8_t *header, size_t header_length, const uint8_t *record, size_t length, uint8_t *text) {
    uint8_t body[REFERENCE_MOST], tag[16];
    memcpy(body, record + 8, length - 8);
    reference_decipher(l, record, body, length - 8);
    reference_tag(l, header, header_length, tag);
    if (memcmp(body, tag, 16)) return 0;
    memcpy(text, body + 16, length - 24);
    return 1;
}

#endif
