// The error control in C, to compare with the library's: a register of 16 bits by x^16 + x^12 + x^5 + 1, preset to ones, an
// octet at a time over one table, and eight octets at a time over eight tables. It prints for each how many megabytes it takes in a
// second, in the least of many blocks.
#include <stdint.h>
#include <stdio.h>
#include <time.h>

enum { OCTETS = 16384, CALLS = 4, BLOCKS = 500 };

static uint16_t remainders[8][256];

static void fill(void) {
    for (int octet = 0; octet < 256; octet++) {
        uint16_t it = octet << 8;
        for (int bit = 0; bit < 8; bit++) it = it & 0x8000 ? it << 1 ^ 0x1021 : it << 1;
        remainders[0][octet] = it;
    }
    for (int zeros = 1; zeros < 8; zeros++)
        for (int octet = 0; octet < 256; octet++) {
            uint16_t it = remainders[zeros - 1][octet];
            remainders[zeros][octet] = it << 8 ^ remainders[0][it >> 8];
        }
}

static uint16_t after_octet(uint16_t it, uint8_t octet) { return it << 8 ^ remainders[0][it >> 8 ^ octet]; }

static uint16_t one_table(const uint8_t *p, size_t n) {
    uint16_t it = 0xffff;
    while (n--) it = after_octet(it, *p++);
    return it;
}

static uint16_t eight_tables(const uint8_t *p, size_t n) {
    uint16_t it = 0xffff;
    for (; n >= 8; n -= 8, p += 8)
        it = remainders[0][p[7]] ^ remainders[1][p[6]] ^ remainders[2][p[5]] ^ remainders[3][p[4]] ^ remainders[4][p[3]] ^
             remainders[5][p[2]] ^ remainders[6][p[1] ^ (it & 255)] ^ remainders[7][p[0] ^ it >> 8];
    while (n--) it = after_octet(it, *p++);
    return it;
}

static double now(void) {
    struct timespec it;
    clock_gettime(CLOCK_MONOTONIC, &it);
    return it.tv_sec * 1e9 + it.tv_nsec;
}

static void measure(const char *name, uint16_t (*way)(const uint8_t *, size_t)) {
    static uint8_t octets[OCTETS];
    double least = 1e18;
    unsigned sum = 0;
    for (int block = 0; block < BLOCKS; block++) {
        double start = now();
        for (int call = 0; call < CALLS; call++) {
            octets[0] = call;
            sum += way(octets, OCTETS);
        }
        double took = now() - start;
        if (took < least) least = took;
    }
    printf("%s %.0f sum %u\n", name, CALLS * OCTETS * 1e3 / least, sum);
}

int main(void) {
    fill();
    const uint8_t digits[] = "123456789";
    if (one_table(digits, 9) != 0x29b1 || eight_tables(digits, 9) != 0x29b1) return 1;
    measure("one_table", one_table);
    measure("eight_tables", eight_tables);
}
