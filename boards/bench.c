/* Cost of seal and open by libboards.a, for texts of 4,096 bytes and a header of 24, against the same construction in plain C (tools/plain-parts.h)
   and over OpenSSL's AES, CMAC and ChaCha20 (reference.h; OpenSSL has no POLYVAL, so pile a has plain C's). Keys are set up in every call. Prints the
   median of the rounds in nanoseconds of the processor a byte of text, and the ratios.

       bench [ROUNDS] */
#include "../tools/plain-parts.h"
#include "reference.h"
#include "sidingmint.h"

#define TEXT 4096
#define BODY (TEXT + 16)
#define TIMES 300
#define MOST_ROUNDS 99

static uint8_t key[32], header[24], text[TEXT], record[TEXT + 24], work[BODY], got[TEXT], name[8];

typedef void hash_part(const uint8_t *s, size_t length, uint8_t out[16]);
typedef void expander_part(uint8_t domain, const uint8_t *tweak, const uint8_t *input, uint8_t *s, size_t length);

static void polyval_plain(const uint8_t *s, size_t length, uint8_t out[16]) { plain_polyval(key, s, length, out); }

static void cmac_plain(const uint8_t *s, size_t length, uint8_t out[16]) { plain_cbc_mac(key, s, length, out); }

static void aes_plain(uint8_t domain, const uint8_t *tweak, const uint8_t *input, uint8_t *s, size_t length) {
    uint8_t first[16] = {domain}, mask[16] = {0};
    memcpy(first + 1, tweak, 8);
    plain_counter(key, first, mask, 16);
    for (int i = 0; i < 16; i++) mask[i] ^= input[i];
    plain_counter(key, mask, s, length);
}

static void chacha_plain(uint8_t domain, const uint8_t *tweak, const uint8_t *input, uint8_t *s, size_t length) {
    uint8_t block[64] = {0}, nonce[16] = {domain};
    plain_chacha(key, input, block, 64);
    memcpy(nonce + 4, tweak, 8);
    if (length < 64) {
        plain_chacha(block, nonce, block, 64);
        for (size_t i = 0; i < length; i++) s[i] ^= block[i];
    } else {
        plain_chacha(block, nonce, s, length);
    }
}

static void cmac_openssl(const uint8_t *s, size_t length, uint8_t out[16]) { reference_cmac(key, s, length, out); }

static void aes_openssl(uint8_t domain, const uint8_t *tweak, const uint8_t *input, uint8_t *s, size_t length) {
    reference_line l = {'a', key, key, 16, key, name};
    reference_expand(&l, domain, tweak, input, s, length);
}

static void chacha_openssl(uint8_t domain, const uint8_t *tweak, const uint8_t *input, uint8_t *s, size_t length) {
    reference_line l = {'b', key, key, 32, key, name};
    reference_expand(&l, domain, tweak, input, s, length);
}

static void add_hash(hash_part *hash, const uint8_t *s, size_t length, uint8_t *to) {
    uint8_t h[16];
    hash(s, length, h);
    for (int i = 0; i < 16; i++) to[i] ^= h[i];
}

static void seal_over(hash_part *hash, expander_part *expand) {
    uint8_t both[32], input[16], *s = record + 8;
    memcpy(both, name, 8);
    memcpy(both + 8, header, 24);
    hash(both, 32, s);
    memcpy(s + 16, text, TEXT);
    add_hash(hash, s + 16, TEXT, s);
    memcpy(input, s, 16);
    expand(1, record, input, s + TEXT, 16);
    memcpy(input, s + TEXT, 16);
    expand(2, record, input, s, TEXT);
    add_hash(hash, s, TEXT, s + TEXT);
}

static void open_over(hash_part *hash, expander_part *expand) {
    uint8_t both[32], input[16], tag[16];
    memcpy(work, record + 8, BODY);
    add_hash(hash, work, TEXT, work + TEXT);
    memcpy(input, work + TEXT, 16);
    expand(2, record, input, work, TEXT);
    memcpy(input, work, 16);
    expand(1, record, input, work + TEXT, 16);
    add_hash(hash, work + 16, TEXT, work);
    memcpy(both, name, 8);
    memcpy(both + 8, header, 24);
    hash(both, 32, tag);
    if (memcmp(tag, work, 16)) abort();
    memcpy(got, work + 16, TEXT);
    memset(work, 0, BODY);
}

static void seal_ours(uint8_t pile) {
    sidingmint_answer a = sidingmint_seal(pile, key, 16, key, pile == 'a' ? 16 : 32, key, 16, name, 8, 1, header, 24, text, TEXT, record, sizeof record);
    if (a.refusal.number) abort();
}

static void open_ours(uint8_t pile) {
    sidingmint_answer a = sidingmint_open(pile, key, 16, key, pile == 'a' ? 16 : 32, key, 16, name, 8, header, 24, record, sizeof record, work, sizeof work, got, sizeof got);
    if (a.refusal.number) abort();
}

static double spent(void (*once)(void)) {
    double t = now();
    for (int i = 0; i < TIMES; i++) once();
    return (now() - t) / ((double)TIMES * TEXT);
}

static void seal_a(void) { seal_ours('a'); }
static void open_a(void) { open_ours('a'); }
static void seal_b(void) { seal_ours('b'); }
static void open_b(void) { open_ours('b'); }
static void seal_a_plain(void) { seal_over(polyval_plain, aes_plain); }
static void open_a_plain(void) { open_over(polyval_plain, aes_plain); }
static void seal_b_plain(void) { seal_over(cmac_plain, chacha_plain); }
static void open_b_plain(void) { open_over(cmac_plain, chacha_plain); }
static void seal_a_openssl(void) { seal_over(polyval_plain, aes_openssl); }
static void open_a_openssl(void) { open_over(polyval_plain, aes_openssl); }
static void seal_b_openssl(void) { seal_over(cmac_openssl, chacha_openssl); }
static void open_b_openssl(void) { open_over(cmac_openssl, chacha_openssl); }

static const struct {
    const char *name;
    void (*once[3])(void);
} table[] = {
    /* A seal goes before the open of its own record. */
    {"pile a, seal", {seal_a, seal_a_plain, seal_a_openssl}},
    {"pile a, open", {open_a, open_a_plain, open_a_openssl}},
    {"pile b, seal", {seal_b, seal_b_plain, seal_b_openssl}},
    {"pile b, open", {open_b, open_b_plain, open_b_openssl}},
};

static int order(const void *a, const void *b) {
    double x = *(const double *)a, y = *(const double *)b;
    return (x > y) - (x < y);
}

int main(int argc, char **argv) {
    static double seen[4][3][MOST_ROUNDS];
    int rounds = argc > 1 ? atoi(argv[1]) : 5;
    if (rounds < 1 || rounds > MOST_ROUNDS) return 2;
    make_sbox();
    for (int i = 0; i < 32; i++) key[i] = (uint8_t)(i * 7 + 1);
    for (int i = 0; i < TEXT; i++) text[i] = (uint8_t)(i * 5);
    for (int r = 0; r < rounds; r++)
        for (int k = 0; k < 3; k++)
            for (int i = 0; i < 4; i++) {
                memset(record, 0, 8);
                record[7] = 1;
                seen[i][k][r] = spent(table[i].once[k]);
                if (i % 2 && memcmp(got, text, TEXT)) return 1;
            }
    printf("%-14s %8s %8s %8s   %s\n", "ns a byte", "library", "plain C", "OpenSSL", "library to plain C, to OpenSSL");
    for (int i = 0; i < 4; i++) {
        double m[3];
        for (int k = 0; k < 3; k++) {
            qsort(seen[i][k], (size_t)rounds, sizeof(double), order);
            m[k] = seen[i][k][rounds / 2];
        }
        printf("%-14s %8.2f %8.2f %8.2f   %.2f, %.2f\n", table[i].name, m[0], m[1], m[2], m[0] / m[1], m[0] / m[2]);
    }
    return 0;
}
