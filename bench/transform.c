/* The 256-point radix-4 transform over plain residues, in C: the same operations in the same order as the
 * library's (multiples by doubling, sums by remainder), for comparison with crates/bench/out/bench.
 *   cc -O3 -o /tmp/transform bench/transform.c && /tmp/transform ROUNDS
 * It prints the checksum, the sums and opposites of one transform, and the time. */
#include <math.h>
#include <stdint.h>
#include <stdio.h>
#include <stdlib.h>
#include <time.h>

static const uint64_t N = (1ULL << 61) - 1;
static uint64_t sums;

typedef struct { uint64_t re, im; } pair;
typedef struct { int64_t re, im; } factor;

static uint64_t sum(uint64_t a, uint64_t b) { sums++; return (a % N + b % N) % N; }
static uint64_t opposite(uint64_t a) { sums++; return (N - a % N) % N; }

static uint64_t multiple(int64_t c, uint64_t x) {
    uint64_t size = c < 0 ? -(uint64_t)c : (uint64_t)c, r = x;
    if (size == 0) return 0;
    for (int bit = 62 - __builtin_clzll(size); bit >= 0; bit--) {
        r = sum(r, r);
        if (size >> bit & 1) r = sum(r, x);
    }
    return c < 0 ? opposite(r) : r;
}

static pair add(pair a, pair b) { return (pair){sum(a.re, b.re), sum(a.im, b.im)}; }
static pair sub(pair a, pair b) { return (pair){sum(a.re, opposite(b.re)), sum(a.im, opposite(b.im))}; }
static pair times(factor w, pair a) {
    uint64_t rr = multiple(w.re, a.re), ii = multiple(w.im, a.im);
    uint64_t re = sum(rr, opposite(ii));
    return (pair){re, sum(multiple(w.re, a.im), multiple(w.im, a.re))};
}
static pair turn(pair a) { return (pair){a.im, opposite(a.re)}; }

/* cosines of the machine stand for the circle: at scale 100 they round alike, as the checksum shows */
static factor twiddle(unsigned u) {
    double angle = 2 * 3.14159265358979323846 * (u % 256) / 256;
    return (factor){lround(100 * cos(angle)), -lround(100 * sin(angle))};
}

static unsigned reversed(unsigned n) { return (n & 3) << 6 | (n & 12) << 2 | (n & 48) >> 2 | n >> 6; }
static uint64_t residue(int64_t m) { return m < 0 ? N - (uint64_t)-m : (uint64_t)m; }

int main(int argc, char **argv) {
    long rounds = argc > 1 ? atol(argv[1]) : 1;
    static factor table[256];
    static pair block[256];
    for (unsigned u = 0; u < 256; u++) table[u] = twiddle(u);
    struct timespec a, b;
    clock_gettime(CLOCK_MONOTONIC, &a);
    for (long round = 0; round < rounds; round++) {
        sums = 0;
        for (unsigned n = 0; n < 256; n++) {
            int64_t re = (int64_t)(n * n % 2001) - 1000;
            block[reversed(n)] = (pair){residue(re), residue(-re)};
        }
        for (unsigned span = 1; span < 256; span *= 4)
            for (unsigned g = 0; g < 256; g += 4 * span)
                for (unsigned k = 0; k < span; k++) {
                    pair x[4];
                    for (unsigned i = 0; i < 4; i++) {
                        pair p = block[g + i * span + k];
                        if (span > 1) {
                            if (i == 0) p = (pair){multiple(100, p.re), multiple(100, p.im)};
                            else p = times(table[i * k * (64 / span) % 256], p);
                        }
                        x[i] = p;
                    }
                    pair even = add(x[0], x[2]), odd = add(x[1], x[3]);
                    pair even_less = sub(x[0], x[2]), odd_less = turn(sub(x[1], x[3]));
                    block[g + k] = add(even, odd);
                    block[g + span + k] = add(even_less, odd_less);
                    block[g + 2 * span + k] = sub(even, odd);
                    block[g + 3 * span + k] = sub(even_less, odd_less);
                }
    }
    clock_gettime(CLOCK_MONOTONIC, &b);
    int64_t check = 0;
    for (unsigned n = 0; n < 256; n++) {
        uint64_t parts[2] = {block[n].re, block[n].im};
        for (int i = 0; i < 2; i++)
            check ^= parts[i] <= (N - 1) / 2 ? (int64_t)parts[i] : (int64_t)parts[i] - (int64_t)N;
    }
    double seconds = (b.tv_sec - a.tv_sec) + (b.tv_nsec - a.tv_nsec) * 1e-9;
    printf("plain: checksum %lld\n", (long long)check);
    printf("plain: %llu sums and opposites a transform\n", (unsigned long long)sums);
    printf("plain: %ld transforms in %.0f microseconds\n", rounds, seconds * 1e6);
    return 0;
}
