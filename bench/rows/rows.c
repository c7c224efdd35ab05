/* The same operations in C, on rows of 20,000 places in words of 64. */
#include <stdint.h>
#include <stdio.h>
#include <stdlib.h>
#include <string.h>
#include <time.h>

enum { PLACES = 20000, WORDS = 4 * ((PLACES + 255) / 256), TIMES = 1000000 };

static double now(void) {
    struct timespec t;
    clock_gettime(CLOCK_MONOTONIC, &t);
    return t.tv_sec * 1e6 + t.tv_nsec * 1e-3;
}

__attribute__((noinline)) static int within(const uint64_t *a, const uint64_t *b, size_t n) {
    for (size_t i = 0; i < n; i++)
        if (a[i] & ~b[i]) return 0;
    return 1;
}

__attribute__((noinline)) static int meets(const uint64_t *a, const uint64_t *b, size_t n) {
    for (size_t i = 0; i < n; i++)
        if (a[i] & b[i]) return 1;
    return 0;
}

__attribute__((noinline)) static void or_into(const uint64_t *a, uint64_t *t, size_t n) {
    for (size_t i = 0; i < n; i++) t[i] |= a[i];
}

__attribute__((noinline)) static size_t count(const uint64_t *a, size_t n) {
    size_t c = 0;
    for (size_t i = 0; i < n; i++) c += (size_t)__builtin_popcountll(a[i]);
    return c;
}

static void turn(uint64_t a[64]) {
    uint64_t m = 0x00000000ffffffffULL;
    for (unsigned j = 32; j; j >>= 1, m ^= m << j)
        for (unsigned k = 0; k < 64; k = ((k | j) + 1) & ~j) {
            uint64_t t = ((a[k] >> j) ^ a[k | j]) & m;
            a[k | j] ^= t;
            a[k] ^= t << j;
        }
}

static uint64_t **rows(void) {
    uint64_t **m = malloc(PLACES * sizeof *m);
    for (int i = 0; i < PLACES; i++) m[i] = calloc(WORDS, 8);
    return m;
}

static void transpose(uint64_t **from, uint64_t **to) {
    for (size_t b = 0; b < (PLACES + 63) / 64; b++)
        for (size_t c = 0; c < (PLACES + 63) / 64; c++) {
            uint64_t block[64] = {0};
            size_t high = PLACES - 64 * b < 64 ? PLACES - 64 * b : 64;
            size_t wide = PLACES - 64 * c < 64 ? PLACES - 64 * c : 64;
            for (size_t i = 0; i < high; i++) block[i] = from[64 * b + i][c];
            turn(block);
            for (size_t i = 0; i < wide; i++) to[64 * c + i][b] = block[i];
        }
}

int main(void) {
    uint64_t *a = calloc(WORDS, 8), *b = calloc(WORDS, 8), *d = calloc(WORDS, 8);
    for (int i = 0; i < PLACES; i++) {
        if (i % 3 == 0) a[i / 64] |= 1ULL << (i % 64);
        if (i % 3 != 1) b[i / 64] |= 1ULL << (i % 64);
        if (i % 3 == 1) d[i / 64] |= 1ULL << (i % 64);
    }
    uint64_t *four[4];
    for (int k = 0; k < 4; k++) {
        four[k] = calloc(WORDS, 8);
        memcpy(four[k], a, WORDS * 8);
    }
    size_t sum = 0;
    double t = now();
    for (int k = 0; k < TIMES; k++) { sum += within(four[k % 4], b, WORDS); __asm__ volatile("" ::: "memory"); }
    printf("subset_of %.0f us for %d: %zu\n", now() - t, TIMES, sum);
    sum = 0;
    t = now();
    for (int k = 0; k < TIMES; k++) { sum += meets(four[k % 4], d, WORDS); __asm__ volatile("" ::: "memory"); }
    printf("meets %.0f us for %d: %zu\n", now() - t, TIMES, sum);
    t = now();
    for (int k = 0; k < TIMES; k++) or_into(a, b, WORDS);
    printf("or_into %.0f us for %d\n", now() - t, TIMES);
    t = now();
    for (int k = 0; k < TIMES; k++) { sum = count(four[k % 4], WORDS); __asm__ volatile("" ::: "memory"); }
    printf("count %.0f us for %d: %zu\n", now() - t, TIMES, sum);
    for (int r = 0; r < 3; r++) {
        uint64_t **m = rows();
        for (int i = 0; i < PLACES; i++) memset(m[i], 0xff, PLACES / 8);
        for (int i = 0; i < PLACES; i++) m[i][i / 2 / 64] &= ~(1ULL << (i / 2 % 64));
        t = now();
        uint64_t **copy = rows();
        for (int i = 0; i < PLACES; i++) memcpy(copy[i], m[i], WORDS * 8);
        printf("copy %.0f us: %d\n", now() - t, (int)copy[7][0]);
        t = now();
        uint64_t **turned = rows();
        transpose(m, turned);
        printf("transpose %.0f us: %d\n", now() - t, (int)(turned[5][0] >> 10 & 1));
        for (int i = 0; i < PLACES; i++) { free(m[i]); free(copy[i]); free(turned[i]); }
        free(m); free(copy); free(turned);
    }
    return 0;
}
