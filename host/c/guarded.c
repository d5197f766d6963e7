/* Each array of each call, at many lengths, right at the edge of memory that may not be touched.
 *
 * An array ends where a page without any access begins, or begins where one ends, so that a read or a write by the library one number
 * beyond either end stops the program. The lengths are 0, 1, half, one less, the right one, one more and double; the answer is asserted each time,
 * and that its explanation, which reads the same arrays, finds a culprit. The explanation of every other number reads them too.
 *
 * The same program on the heap (GUARD_HEAP) is for the address sanitizer and valgrind, with arrays of exactly the size that is lent. What the
 * sanitizer shows is less: the proved archive is not instrumented, so of it only its memcpy and memset are checked, beside this program and the
 * help. Valgrind checks every access of the library to the heap. */
#ifndef _GNU_SOURCE
#define _GNU_SOURCE
#endif
#include <stdio.h>
#include <stdlib.h>
#include <string.h>

#include "vehicle_help.h"

enum { WHEELS = 2, BODIES = 2, PLACES = 7 };

enum array { TABLE, WHOLE, SETTINGS, CONTROLS, BY_ANGLE, CHASSIS, SIGHTS, BODY, DYNAMIC, KINDS, NAMED, RAYS, DRIVEN, TYRE, ARRAYS };
enum call { SET_UP, ADD, SET_CONTROLS, SET_BY_ANGLE, AIM, DRIVE, READ, CALLS };

static const size_t right[ARRAYS] = {
    VEHICLE_TABLE_LEN, VEHICLE_WHOLE_LEN, VEHICLE_SETTINGS_LEN, VEHICLE_CONTROLS_LEN, VEHICLE_CONTROLS_BY_ANGLE_LEN, VEHICLE_CHASSIS_LEN, VEHICLE_AIM_LEN, BODIES * VEHICLE_BODY_LEN, BODIES, WHEELS, WHEELS, WHEELS * VEHICLE_RAY_LEN, VEHICLE_DRIVE_LEN, VEHICLE_READ_LEN,
};

static const int takes[CALLS][ARRAYS] = {
    {1, 1, 0, 0, 0, 0, 0, 0, 0, 0, 0, 0, 0, 0}, {1, 1, 1, 0, 0, 0, 0, 0, 0, 0, 0, 0, 0, 0}, {1, 1, 0, 1, 0, 0, 0, 0, 0, 0, 0, 0, 0, 0}, {1, 1, 0, 0, 1, 0, 0, 0, 0, 0, 0, 0, 0, 0}, {1, 1, 0, 0, 0, 1, 1, 0, 0, 0, 0, 0, 0, 0}, {1, 1, 0, 0, 0, 0, 0, 1, 1, 1, 1, 1, 1, 0}, {1, 1, 0, 0, 0, 0, 0, 0, 0, 0, 0, 0, 0, 1},
};

/* What is in the arrays before a call: whole numbers and floats are both four bytes. */
static uint32_t contents[ARRAYS][VEHICLE_TABLE_LEN];

#ifdef GUARD_HEAP
static void *lend(enum array array, size_t bytes, int at_end)
{
    (void)array;
    (void)at_end;
    return malloc(bytes);
}
static void take_back(void *lent)
{
    free(lent);
}
#else
#include <sys/mman.h>
enum { PAGE = 4096, PAGES = 4 };
static char *arenas[ARRAYS];

static void *lend(enum array array, size_t bytes, int at_end)
{
    if (arenas[array] == NULL) {
        char *whole = (char *)mmap(NULL, (PAGES + 2) * PAGE, PROT_NONE, MAP_PRIVATE | MAP_ANONYMOUS, -1, 0);
        if ((void *)whole == MAP_FAILED || mprotect(whole + PAGE, PAGES * PAGE, PROT_READ | PROT_WRITE) != 0) {
            perror("guard pages");
            exit(2);
        }
        arenas[array] = whole + PAGE;
    }
    return at_end ? arenas[array] + PAGES * PAGE - bytes : arenas[array];
}
static void take_back(void *lent)
{
    (void)lent;
}
#endif

static uint32_t make(enum call call, void *const at[ARRAYS], const size_t n[ARRAYS])
{
    float *table = (float *)at[TABLE];
    uint32_t *whole = (uint32_t *)at[WHOLE];
    switch (call) {
    case SET_UP:
        return vehicle_set_up(table, n[TABLE], whole, n[WHOLE], 1, 0);
    case ADD:
        return vehicle_add_wheel(table, n[TABLE], whole, n[WHOLE], (const float *)at[SETTINGS], n[SETTINGS]);
    case SET_CONTROLS:
        return vehicle_set_controls(table, n[TABLE], whole, n[WHOLE], 0, (const float *)at[CONTROLS], n[CONTROLS]);
    case SET_BY_ANGLE:
        return vehicle_set_controls_by_angle(table, n[TABLE], whole, n[WHOLE], 1, (const float *)at[BY_ANGLE], n[BY_ANGLE]);
    case AIM:
        return vehicle_aim(table, n[TABLE], whole, n[WHOLE], (const float *)at[CHASSIS], n[CHASSIS], (float *)at[SIGHTS], n[SIGHTS]);
    case DRIVE:
        return vehicle_drive(table, n[TABLE], whole, n[WHOLE], 0.5f, (const float *)at[BODY], n[BODY], (const uint32_t *)at[DYNAMIC], n[DYNAMIC], (const uint32_t *)at[KINDS], n[KINDS], (const uint32_t *)at[NAMED], n[NAMED], (const float *)at[RAYS], n[RAYS], (float *)at[DRIVEN], n[DRIVEN]);
    case READ:
        return vehicle_read_wheel(table, n[TABLE], whole, n[WHOLE], 1, (float *)at[TYRE], n[TYRE]);
    default:
        return 99;
    }
}

static vehicle_finding explain(enum call call, uint32_t answer, void *const at[ARRAYS], const size_t n[ARRAYS])
{
    const float *table = (const float *)at[TABLE];
    const uint32_t *whole = (const uint32_t *)at[WHOLE];
    switch (call) {
    case SET_UP:
        return vehicle_explain_set_up(answer, table, n[TABLE], whole, n[WHOLE], 1, 0);
    case ADD:
        return vehicle_explain_add_wheel(answer, table, n[TABLE], whole, n[WHOLE], (const float *)at[SETTINGS], n[SETTINGS]);
    case SET_CONTROLS:
        return vehicle_explain_set_controls(answer, table, n[TABLE], whole, n[WHOLE], 0, (const float *)at[CONTROLS], n[CONTROLS]);
    case SET_BY_ANGLE:
        return vehicle_explain_set_controls_by_angle(answer, table, n[TABLE], whole, n[WHOLE], 1, (const float *)at[BY_ANGLE], n[BY_ANGLE]);
    case AIM:
        return vehicle_explain_aim(answer, table, n[TABLE], whole, n[WHOLE], (const float *)at[CHASSIS], n[CHASSIS], (const float *)at[SIGHTS], n[SIGHTS]);
    case DRIVE:
        return vehicle_explain_drive(answer, table, n[TABLE], whole, n[WHOLE], 0.5f, (const float *)at[BODY], n[BODY], (const uint32_t *)at[DYNAMIC], n[DYNAMIC], (const uint32_t *)at[KINDS], n[KINDS], (const uint32_t *)at[NAMED], n[NAMED], (const float *)at[RAYS], n[RAYS], (const float *)at[DRIVEN], n[DRIVEN]);
    default:
        return vehicle_explain_read_wheel(answer, table, n[TABLE], whole, n[WHOLE], 1, (const float *)at[TYRE], n[TYRE]);
    }
}

/* That a refusal has its explanation; the others are asked for what they read. */
static void explain_all(enum call call, uint32_t number, void *const at[ARRAYS], const size_t n[ARRAYS])
{
    uint32_t answer;
    for (answer = 0; answer <= VEHICLE_BAD_TURN; answer++) {
        vehicle_finding finding = explain(call, answer, at, n);
        if (answer == number && number != 0 && finding.field == NULL) {
            fprintf(stderr, "guarded: call %d: nothing explains %lu\n", (int)call, (unsigned long)number);
            exit(1);
        }
    }
}

/* Makes the call with one array of another length, and gives its number. */
static uint32_t call_with(enum call call, enum array odd, size_t length, int at_end)
{
    void *at[ARRAYS];
    size_t n[ARRAYS], i;
    uint32_t number;
    int a;
    for (a = 0; a < ARRAYS; a++) {
        n[a] = a == (int)odd ? length : right[a];
        at[a] = lend((enum array)a, n[a] * 4, at_end);
        for (i = 0; i < n[a]; i++)
            ((uint32_t *)at[a])[i] = contents[a][i % right[a]];
    }
    number = make(call, at, n);
    explain_all(call, number, at, n);
    for (a = 0; a < ARRAYS; a++) {
        if (number == 0 && length == right[odd])
            memcpy(contents[a], at[a], n[a] * 4);
        take_back(at[a]);
    }
    return number;
}

static void fill(enum array array, const float *numbers)
{
    memcpy(contents[array], numbers, right[array] * 4);
}

static void fill_all(void)
{
    static const float settings[] = {1, 0, 1, 0, -1, 0, 0, 0, 1, 1, 1, 8, 2, 2, 0.5f, 1, 0.3125f, 1024, VEHICLE_ROLL_INFLUENCE};
    static const float controls[] = {12, 3, 0, 0, 0, 1}, by_angle[] = {12, 3, 0.5f};
    static const float chassis[] = {0, 0, 0, 0, 0, 0, 1, 0, 0, 0, 12, 0, 5, 0, 0, 0, 0.25f, 0.25f, 0.25f, 0.25f, 0, 0, 0, 0, 0, 0};
    static const float bodies[BODIES * VEHICLE_BODY_LEN] = {0};
    static const float rays[] = {0.75f, 0, 1, 0, 0, -1, 0, 0.5f, 0, 1, 0, 0, -1, 0};
    static const uint32_t dynamic[] = {1, 0}, kinds[] = {VEHICLE_HIT, VEHICLE_HIT_UP}, named[] = {1, 2};
    fill(SETTINGS, settings);
    fill(CONTROLS, controls);
    fill(BY_ANGLE, by_angle);
    fill(CHASSIS, chassis);
    fill(BODY, bodies);
    fill(RAYS, rays);
    memcpy(contents[DYNAMIC], dynamic, sizeof dynamic);
    memcpy(contents[KINDS], kinds, sizeof kinds);
    memcpy(contents[NAMED], named, sizeof named);
}

/* The refusal of a call with an array of the wrong length. */
static uint32_t refusal_of(enum call call, enum array odd)
{
    return call == DRIVE && odd >= BODY && odd <= RAYS ? VEHICLE_BAD_LISTS : VEHICLE_NO_VEHICLE;
}

/* Every array of one call, at every length and both edges; then the call itself, whose contents are kept. */
static int sweep(enum call call)
{
    int swept = 0, a, p, at_end;
    for (a = 0; a < ARRAYS; a++) {
        size_t r = right[a];
        const size_t lengths[PLACES] = {0, 1, r / 2, r - 1, r + 1, r * 2, 3 * r / 2};
        if (!takes[call][a])
            continue;
        for (p = 0; p < PLACES; p++)
            for (at_end = 0; at_end < 2; at_end++, swept++) {
                uint32_t number;
                if (lengths[p] == r)
                    continue;
                number = call_with(call, (enum array)a, lengths[p], at_end);
                if (number != refusal_of(call, (enum array)a)) {
                    fprintf(stderr, "guarded: call %d, array %d of length %lu: answered %lu\n", (int)call, a, (unsigned long)lengths[p], (unsigned long)number);
                    exit(1);
                }
            }
    }
    if (call_with(call, TABLE, right[TABLE], 1) != 0) {
        fprintf(stderr, "guarded: call %d was refused\n", (int)call);
        exit(1);
    }
    return swept + 1;
}

int main(void)
{
    static const enum call calls[] = {SET_UP, ADD, ADD, SET_CONTROLS, SET_BY_ANGLE, AIM, DRIVE, READ};
    int swept = 0;
    size_t i;
    fill_all();
    memset(contents[TABLE], 0xff, sizeof contents[TABLE]);
    for (i = 0; i < sizeof calls / sizeof calls[0]; i++)
        swept += sweep(calls[i]);
    printf("guarded: %d calls at the edge of memory, none beyond it\n", swept);
    return 0;
}
