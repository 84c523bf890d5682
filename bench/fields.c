/* The three fields in plain C, by shifts: prints what the program field_run prints.
 *     cc -O3 -o fields bench/fields.c && ./fields STEPS [NAME] */
#include <stdint.h>
#include <stdio.h>
#include <stdlib.h>
#include <string.h>

static uint32_t modulo(uint32_t a, uint32_t b, uint32_t tail, int bits) {
    uint32_t sum = 0, top = 1u << (bits - 1), mask = (top << 1) - 1;
    for (int i = 0; i < bits; i++) {
        if (a >> i & 1) sum ^= b;
        b = (b & top) ? ((b << 1) ^ tail) & mask : (b << 1) & mask;
    }
    return sum;
}

static uint32_t octet(uint32_t a, uint32_t b) { return modulo(a, b, 0x1b, 8); }

static uint32_t word(uint32_t a, uint32_t b) { return modulo(a, b, 0x100b, 16); }

static uint32_t nibble(uint32_t a, uint32_t b) {
    uint32_t sum = 0;
    for (int i = 0; i < 7; i++) {
        uint32_t row = b;
        for (int j = 0; j < 4; j++) {
            if (a >> (4 * i + j) & 1) sum ^= row;
            uint32_t high = row >> 3 & 0x1111111;
            row = ((row & 0x7777777) << 1) ^ high ^ (high << 1);
        }
        uint32_t top = b >> 24;
        b = ((b & 0xffffff) << 4) ^ top ^ (top << 4);
    }
    return sum;
}

typedef uint32_t product(uint32_t, uint32_t);

static inline void run(const char *name, product *mul, uint32_t size, int squares, uint32_t steps) {
    uint32_t x = 1, seed = 1;
    for (uint32_t i = 0; i < steps; i++) {
        seed = seed * 1103515245u + 12345u;
        uint32_t y = (seed >> 4) % size;
        x = mul(x, y) ^ y;
        for (int s = 0; s < squares; s++) x = mul(x, x);
    }
    uint32_t inverse = 1, power = x;
    for (uint32_t n = size - 2; n; n >>= 1) {
        if (n & 1) inverse = mul(inverse, power);
        power = mul(power, power);
    }
    printf("%s %u %u\n", name, x, inverse);
}

int main(int argc, char **argv) {
    uint32_t steps = argc > 1 ? (uint32_t)atol(argv[1]) : 1000;
    const char *only = argc > 2 ? argv[2] : "";
    if (!*only || !strcmp(only, "octet")) run("octet", octet, 1u << 8, 1, steps);
    if (!*only || !strcmp(only, "word")) run("word", word, 1u << 16, 1, steps);
    if (!*only || !strcmp(only, "nibble")) run("nibble", nibble, 1u << 28, 4, steps);
    return 0;
}
