/* Nanoseconds of the processor a byte of the keyed hashes and the expanders, of the library (libbench.a) and in plain C. Prints a line for each: name, ns. */
#include "plain-parts.h"

uint64_t bench_hash(uint8_t kind, const uint8_t *key, size_t key_len, const uint8_t *s, size_t len, uint8_t *out, size_t out_len);
uint64_t bench_expand(uint8_t kind, const uint8_t *key, size_t key_len, const uint8_t *input, size_t input_len, uint8_t *s, size_t len);

#define SIZE 4096
#define TIMES 2000
#define MEASURE(name, call) { double t = now(); for (int n = 0; n < TIMES; n++) { call; } printf("%s %.3f\n", name, (now() - t) / ((double)TIMES * SIZE)); }

int main(void) {
    static uint8_t s[SIZE], key[32], input[16], out[16];
    make_sbox();
    for (int i = 0; i < 32; i++) key[i] = (uint8_t)(i * 7 + 1);
    MEASURE("polyval", bench_hash(0, key, 16, s, SIZE, out, 16))
    MEASURE("polyval-c", plain_polyval(key, s, SIZE, out))
    MEASURE("cmac", bench_hash(1, key, 16, s, SIZE, out, 16))
    MEASURE("cmac-c", plain_cbc_mac(key, s, SIZE, out))
    MEASURE("aes", bench_expand(0, key, 16, input, 16, s, SIZE))
    MEASURE("aes-c", plain_counter(key, input, s, SIZE))
    MEASURE("chacha", bench_expand(1, key, 32, input, 16, s, SIZE))
    MEASURE("chacha-c", plain_chacha(key, input, s, SIZE))
    volatile uint8_t sink = out[0];
    return sink & 0;
}
