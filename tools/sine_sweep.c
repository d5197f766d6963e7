/* Runs the proved sine and cosine of half a steering angle beside the C library's in double precision, and tells the largest error of each.
 *
 *   sine_sweep all      every f32 from -1 to 1, both zeros and the subnormals too
 *   sine_sweep sample   each exponent of these with both signs: both ends of its fractions and some thousand between
 *   sine_sweep time     the time of both beside the C library's in single precision, on the same half angles, in one run
 *
 * An error is told in units of 2^-20, with the half angle where it is. Half angles below 2^-30 in size, less than a grain of the library's sums,
 * are told apart from the others. The bound of 2^-20 is that of change request 2026-11 from the Taylor sum through the twelfth power; sine and
 * cosine themselves are less than 2^-32 away from that sum. The exit status is 0 only if every error lies within the bound, and if minus a half
 * angle has minus the sine and the same cosine.
 */
#include <math.h>
#include <pthread.h>
#include <stdint.h>
#include <stdio.h>
#include <string.h>
#include <time.h>

float vehicle_sine(float half_angle);
float vehicle_cosine(float half_angle);

enum { THREADS = 2, PIECES = 1 << 10, FRACTIONS = 1 << 23, ENDS = 1024, BETWEEN = 4096, ROUNDS = 1 << 24 };

/* The patterns of 2^-30 and of 1. */
static const uint32_t grain = 0x30800000, one = 0x3f800000;
static const double unit = 1.0 / (1 << 20);

static float of_bits(uint32_t bits) {
    float x;
    memcpy(&x, &bits, sizeof x);
    return x;
}

static uint32_t to_bits(float x) {
    uint32_t bits;
    memcpy(&bits, &x, sizeof bits);
    return bits;
}

struct error {
    double size;
    float at;
};

/* The largest errors of half angles of one size, and how many were tried. */
struct errors {
    struct error sine, cosine;
    uint64_t tried;
};

struct swept {
    struct errors above, below;
    uint64_t unlike;
};

static void keep(struct error *most, double size, float at) {
    if (!isnan(most->size) && !(size <= most->size)) *most = (struct error){size, at};
}

/* A half angle of this pattern, which has no sign, and minus it. */
static void try(struct swept *swept, uint32_t bits) {
    float half = of_bits(bits), sine = vehicle_sine(half), cosine = vehicle_cosine(half);
    struct errors *errors = bits >= grain ? &swept->above : &swept->below;
    keep(&errors->sine, fabs((double)sine - sin((double)half)), half);
    keep(&errors->cosine, fabs((double)cosine - cos((double)half)), half);
    errors->tried += 2;
    if (to_bits(vehicle_sine(-half)) != to_bits(-sine) || to_bits(vehicle_cosine(-half)) != to_bits(cosine)) {
        fprintf(stderr, "sine or cosine of minus %08x is not as that of %08x\n", bits, bits);
        swept->unlike++;
    }
}

static void add(struct errors *sum, const struct errors *more) {
    keep(&sum->sine, more->sine.size, more->sine.at);
    keep(&sum->cosine, more->cosine.size, more->cosine.at);
    sum->tried += more->tried;
}

struct part {
    int first;
    struct swept swept;
};

/* Every THREADS-th of the pieces, so that each thread has as many small half angles, whose sine takes another time. */
static void *sweep(void *argument) {
    struct part *part = argument;
    for (uint64_t piece = part->first; piece < PIECES; piece += THREADS) {
        uint64_t whole = (uint64_t)one + 1;
        for (uint64_t bits = whole * piece / PIECES; bits < whole * (piece + 1) / PIECES; bits++) try(&part->swept, (uint32_t)bits);
    }
    return NULL;
}

static void sweep_all(struct swept *swept) {
    static struct part parts[THREADS];
    pthread_t threads[THREADS];
    for (int i = 0; i < THREADS; i++) {
        parts[i].first = i;
        pthread_create(&threads[i], NULL, sweep, &parts[i]);
    }
    for (int i = 0; i < THREADS; i++) {
        pthread_join(threads[i], NULL);
        add(&swept->above, &parts[i].swept.above);
        add(&swept->below, &parts[i].swept.below);
        swept->unlike += parts[i].swept.unlike;
    }
}

static void sweep_sample(struct swept *swept) {
    uint32_t state = 1;
    for (uint32_t base = 0; base < one; base += FRACTIONS) {
        for (uint32_t i = 0; i < ENDS; i++) {
            try(swept, base | i);
            try(swept, base | (FRACTIONS - 1 - i));
        }
        for (uint32_t i = 0; i < BETWEEN; i++) {
            state = state * 1664525u + 1013904223u;
            try(swept, base | state >> 9);
        }
    }
    try(swept, one);
}

static double seconds(void) {
    struct timespec now;
    clock_gettime(CLOCK_MONOTONIC, &now);
    return now.tv_sec + now.tv_nsec * 1e-9;
}

/* Times one pair on half angles from -1 to 1; the sum of the results is returned so that no call can be left out. */
static double timed(float (*sine)(float), float (*cosine)(float), double *nanoseconds) {
    double sum = 0, start = seconds();
    uint32_t state = 1;
    for (int i = 0; i < ROUNDS; i++) {
        state = state * 1664525u + 1013904223u;
        float half = (float)(int32_t)state / 2147483648.0f;
        sum += sine(half) + cosine(half);
    }
    *nanoseconds = (seconds() - start) / ROUNDS * 1e9;
    return sum;
}

static void tell(const char *name, const struct errors *errors) {
    struct { const char *name; struct error error; } both[] = {{"sine", errors->sine}, {"cosine", errors->cosine}};
    printf("%s: %llu half angles\n", name, (unsigned long long)errors->tried);
    for (int i = 0; i < 2; i++) printf("  %s: at most %.9f of 2^-20, at %.9g (%08x)\n", both[i].name, both[i].error.size / unit, both[i].error.at, to_bits(both[i].error.at));
}

static int is_within(const struct errors *errors) {
    return errors->sine.size <= unit && errors->cosine.size <= unit;
}

int main(int count, char **words) {
    const char *what = count == 2 ? words[1] : "";
    struct swept swept = {0};
    if (!strcmp(what, "time")) {
        double ours, theirs;
        float (*volatile sine)(float) = sinf, (*volatile cosine)(float) = cosf;
        double a = timed(vehicle_sine, vehicle_cosine, &ours), b = timed(sine, cosine, &theirs);
        int near = fabs(a - b) <= ROUNDS * unit;
        printf("sine and cosine %.1f ns, the C library's in single precision %.1f ns, ratio %.1f (sums %s)\n", ours, theirs, ours / theirs, near ? "near" : "differ");
        return near ? 0 : 1;
    }
    if (!strcmp(what, "all")) sweep_all(&swept);
    else if (!strcmp(what, "sample")) sweep_sample(&swept);
    else {
        fprintf(stderr, "usage: sine_sweep all | sample | time\n");
        return 2;
    }
    tell("from 2^-30 to 1", &swept.above);
    tell("below 2^-30", &swept.below);
    int holds = is_within(&swept.above) && is_within(&swept.below);
    printf("%llu half angles, each error %s 2^-20, %llu unlike that of the other sign\n", (unsigned long long)(swept.above.tried + swept.below.tried), holds ? "within" : "NOT within", (unsigned long long)swept.unlike);
    return holds && !swept.unlike ? 0 : 1;
}
