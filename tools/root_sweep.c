/* Runs the proved root beside the processor's own square root and counts the patterns on which they differ.
 *
 *   root_sweep all      every one of the 2^32 bit patterns
 *   root_sweep sample   each exponent with both signs: both ends of its fractions and some thousand between; every special value
 *   root_sweep time     the time of a root beside the hardware's, on the same patterns, in one run
 *
 * Two NaNs count as equal: there is one NaN in the definition, with no sign and no payload. The exit status is 0 only if nothing differs.
 */
#include <math.h>
#include <pthread.h>
#include <stdint.h>
#include <stdio.h>
#include <string.h>
#include <time.h>

float vehicle_root(float x);

enum { THREADS = 2, EXPONENTS = 256, FRACTIONS = 1 << 23, ENDS = 1024, BETWEEN = 4096, ROUNDS = 1 << 24 };

static float of_bits(uint32_t bits) {
    float x;
    memcpy(&x, &bits, sizeof x);
    return x;
}

static uint32_t to_bits(float x) {
    uint32_t bits;
    memcpy(&bits, &x, sizeof bits);
    return bits;
}

/* Whether the two roots of a pattern differ. */
static int differs(uint32_t bits) {
    float x = of_bits(bits);
    float ours = vehicle_root(x), theirs = sqrtf(x);
    if (isnan(ours) && isnan(theirs)) return 0;
    if (to_bits(ours) == to_bits(theirs)) return 0;
    fprintf(stderr, "root of %08x: %08x, the processor says %08x\n", bits, to_bits(ours), to_bits(theirs));
    return 1;
}

struct span {
    uint64_t from, to, differences;
};

static void *sweep(void *argument) {
    struct span *span = argument;
    for (uint64_t bits = span->from; bits < span->to; bits++) span->differences += differs((uint32_t)bits);
    return NULL;
}

static uint64_t sweep_all(uint64_t *tried) {
    struct span spans[THREADS];
    pthread_t threads[THREADS];
    uint64_t whole = 1ull << 32, differences = 0;
    for (int i = 0; i < THREADS; i++) {
        spans[i] = (struct span){whole / THREADS * i, whole / THREADS * (i + 1), 0};
        pthread_create(&threads[i], NULL, sweep, &spans[i]);
    }
    for (int i = 0; i < THREADS; i++) {
        pthread_join(threads[i], NULL);
        differences += spans[i].differences;
    }
    *tried = whole;
    return differences;
}

static uint64_t sweep_sample(uint64_t *tried) {
    uint64_t differences = 0, count = 0;
    uint32_t state = 1;
    for (uint32_t sign = 0; sign < 2; sign++)
        for (uint32_t exponent = 0; exponent < EXPONENTS; exponent++) {
            uint32_t base = sign << 31 | exponent << 23;
            for (uint32_t i = 0; i < ENDS; i++, count += 2) {
                differences += differs(base | i);
                differences += differs(base | (FRACTIONS - 1 - i));
            }
            for (uint32_t i = 0; i < BETWEEN; i++, count++) {
                state = state * 1664525u + 1013904223u;
                differences += differs(base | state >> 9);
            }
        }
    *tried = count;
    return differences;
}

static double seconds(void) {
    struct timespec now;
    clock_gettime(CLOCK_MONOTONIC, &now);
    return now.tv_sec + now.tv_nsec * 1e-9;
}

/* Times one of the two on finite positive patterns; the sum of the results is returned so that no call can be left out. */
static float timed(float (*root)(float), double *nanoseconds) {
    float sum = 0;
    uint32_t state = 1;
    double start = seconds();
    for (int i = 0; i < ROUNDS; i++) {
        state = state * 1664525u + 1013904223u;
        sum += root(of_bits(state >> 2));
    }
    *nanoseconds = (seconds() - start) / ROUNDS * 1e9;
    return sum;
}

int main(int count, char **words) {
    const char *what = count == 2 ? words[1] : "";
    uint64_t tried, differences;
    if (!strcmp(what, "time")) {
        double ours, theirs;
        float (*volatile hardware)(float) = sqrtf;
        float a = timed(vehicle_root, &ours), b = timed(hardware, &theirs);
        printf("root %.1f ns, the processor's %.1f ns, ratio %.1f (sums %s)\n", ours, theirs, ours / theirs, a == b ? "equal" : "differ");
        return a == b ? 0 : 1;
    }
    if (!strcmp(what, "all")) differences = sweep_all(&tried);
    else if (!strcmp(what, "sample")) differences = sweep_sample(&tried);
    else {
        fprintf(stderr, "usage: root_sweep all | sample | time\n");
        return 2;
    }
    printf("%llu patterns, %llu differences\n", (unsigned long long)tried, (unsigned long long)differences);
    return differences ? 1 : 0;
}
