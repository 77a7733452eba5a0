/* The yardstick P of the benchmarks: one cyclic product of 701 coefficients by 701 rows, in plain C.
   Prints the best time of many, in nanoseconds. */
#include <stdint.h>
#include <stdio.h>
#include <string.h>
#include <time.h>

enum { N = 701, PLACES = 64, TURNS = 100 };

static uint64_t state = 88172645463325252u;

/* A nonlinear generator: a linear one makes some inputs look special. */
static uint64_t next(void) {
    uint64_t x = state += 0x9E3779B97F4A7C15u;
    x = (x ^ (x >> 30)) * 0xBF58476D1CE4E5B9u;
    x = (x ^ (x >> 27)) * 0x94D049BB133111EBu;
    return x ^ (x >> 31);
}

/* Rows of any length over lent memory, as the library has them: the compiler knows neither n nor that the lists lie apart. */
__attribute__((noipa)) void product(size_t n, const uint16_t *u, const uint16_t *v, uint16_t *doubled, uint16_t *out) {
    memcpy(doubled, v, n * sizeof *v);
    memcpy(doubled + n, v, n * sizeof *v);
    memset(out, 0, n * sizeof *out);
    for (size_t j = 0; j < n; j++) {
        const uint16_t *list = doubled + n - j;
        uint16_t factor = u[j];
        for (size_t i = 0; i < n; i++)
            out[i] = (uint16_t)(out[i] + (uint32_t)factor * list[i]);
    }
}

static int64_t now(void) {
    struct timespec t;
    clock_gettime(CLOCK_MONOTONIC, &t);
    return (int64_t)t.tv_sec * 1000000000 + t.tv_nsec;
}

int main(void) {
    static uint16_t u[N], v[N], doubled[2 * N], room[4096];
    int64_t best = INT64_MAX;
    uint32_t mixed = 0;
    for (int i = 0; i < N; i++) {
        u[i] = (uint16_t)next();
        v[i] = (uint16_t)next();
    }
    /* Many places for the output: where it lies 4096 bytes from the list, a processor takes the one for the other. */
    for (int place = 0; place < PLACES; place++) {
        uint16_t *out = room + 33 * place;
        for (int turn = 0; turn < TURNS; turn++) {
            int64_t start = now();
            product(N, u, v, doubled, out);
            int64_t spent = now() - start;
            if (spent < best)
                best = spent;
            mixed = mixed * 31 + out[turn];
        }
    }
    printf("P %lld\n", (long long)best);
    return mixed == 1;
}
