/* How deep each call goes into the stack: a thread of its own paints its stack below where it stands, makes the call, and counts how far down
 * the paint is gone. What goes less deep than MARGIN does not show. The aim has a wheel that is steered by an angle and others by a rotation. */
#define _POSIX_C_SOURCE 200809L
#include <pthread.h>
#include <stdio.h>
#include <stdlib.h>
#include <string.h>

#include "vehicle.h"

enum { STACK = 1 << 20, PAINT = 0xa5, MARGIN = 256, BODIES = VEHICLE_MOST_BODIES };

enum call { SET_UP, ADD, CONTROLS, BY_ANGLE, AIM, DRIVE, READ, CALLS };
static const char *const names[CALLS] = {"set up", "add a wheel", "set controls", "set controls by angle", "aim", "drive", "read a wheel"};
static size_t deep[CALLS];
static unsigned char *stack;

static float table[VEHICLE_TABLE_LEN], sights[VEHICLE_AIM_LEN], driven[VEHICLE_DRIVE_LEN], tyre[VEHICLE_READ_LEN];
static uint32_t whole[VEHICLE_WHOLE_LEN], wheels;
static const float settings[VEHICLE_SETTINGS_LEN] = {1, 0, 1, 0, -1, 0, 0, 0, 1, 1, 1, 8, 2, 2, 0.5f, 1, 0.3125f, 1024, VEHICLE_ROLL_INFLUENCE};
static const float controls[VEHICLE_CONTROLS_LEN] = {12, 3, 0, 0, 0, 1};
static const float by_angle[VEHICLE_CONTROLS_BY_ANGLE_LEN] = {12, 3, 0.5f};
static const float chassis[VEHICLE_CHASSIS_LEN] = {0, 0, 0, 0, 0, 0, 1, 0, 0, 0, 12, 0, 5, 0, 0, 0, 0.25f, 0.25f, 0.25f, 0.25f, 0, 0, 0, 0, 0, 0};
static float bodies[BODIES * VEHICLE_BODY_LEN], rays[VEHICLE_MOST_WHEELS * VEHICLE_RAY_LEN];
static uint32_t dynamic[BODIES], kinds[VEHICLE_MOST_WHEELS], named[VEHICLE_MOST_WHEELS];

static uint32_t make(enum call call)
{
    switch (call) {
    case SET_UP:
        return vehicle_set_up(table, VEHICLE_TABLE_LEN, whole, VEHICLE_WHOLE_LEN, 1, 0);
    case ADD:
        return vehicle_add_wheel(table, VEHICLE_TABLE_LEN, whole, VEHICLE_WHOLE_LEN, settings, VEHICLE_SETTINGS_LEN);
    case CONTROLS:
        return vehicle_set_controls(table, VEHICLE_TABLE_LEN, whole, VEHICLE_WHOLE_LEN, 0, controls, VEHICLE_CONTROLS_LEN);
    case BY_ANGLE:
        return vehicle_set_controls_by_angle(table, VEHICLE_TABLE_LEN, whole, VEHICLE_WHOLE_LEN, 0, by_angle, VEHICLE_CONTROLS_BY_ANGLE_LEN);
    case AIM:
        return vehicle_aim(table, VEHICLE_TABLE_LEN, whole, VEHICLE_WHOLE_LEN, chassis, VEHICLE_CHASSIS_LEN, sights, VEHICLE_AIM_LEN);
    case DRIVE:
        return vehicle_drive(table, VEHICLE_TABLE_LEN, whole, VEHICLE_WHOLE_LEN, 0.5f, bodies, BODIES * VEHICLE_BODY_LEN, dynamic, BODIES, kinds, wheels, named, wheels, rays, wheels * VEHICLE_RAY_LEN, driven, VEHICLE_DRIVE_LEN);
    case READ:
        return vehicle_read_wheel(table, VEHICLE_TABLE_LEN, whole, VEHICLE_WHOLE_LEN, 0, tyre, VEHICLE_READ_LEN);
    default:
        return 0;
    }
}

static void *thread(void *of)
{
    enum call call = *(enum call *)of;
    unsigned char here;
    size_t below = (size_t)(&here - stack) - MARGIN, untouched = 0;
    memset(stack, PAINT, below);
    if (make(call) != 0) {
        fprintf(stderr, "stack: %s was refused\n", names[call]);
        exit(1);
    }
    while (untouched < below && stack[untouched] == PAINT)
        untouched++;
    deep[call] = untouched == below ? 0 : (size_t)(&here - stack) - untouched;
    return NULL;
}

static void measure(enum call call)
{
    pthread_attr_t attributes;
    pthread_t id;
    if (pthread_attr_init(&attributes) != 0 || pthread_attr_setstack(&attributes, stack, STACK) != 0 || pthread_create(&id, &attributes, thread, &call) != 0 || pthread_join(id, NULL) != 0) {
        fprintf(stderr, "stack: no thread\n");
        exit(2);
    }
}

int main(void)
{
    int i;
    if (posix_memalign((void **)&stack, 4096, STACK) != 0)
        return 2;
    for (i = 0; i < VEHICLE_MOST_WHEELS; i++) {
        kinds[i] = VEHICLE_HIT;
        named[i] = 1 + (uint32_t)i;
        rays[i * VEHICLE_RAY_LEN] = 0.75f;
        rays[i * VEHICLE_RAY_LEN + 2] = 1;
    }
    /* Once without a count: the first call of a function of the C library may look it up, deep in the stack. */
    wheels = 1;
    for (i = SET_UP; i < CALLS; i++)
        if (make((enum call)i) != 0)
            return 1;
    measure(SET_UP);
    for (wheels = 0; wheels < VEHICLE_MOST_WHEELS; wheels++)
        measure(ADD);
    for (i = CONTROLS; i < CALLS; i++)
        measure((enum call)i);
    printf("Stack of a call with 16 wheels and 64 bodies, in bytes (0: below %d)\n\n", MARGIN);
    for (i = 0; i < CALLS; i++)
        printf("- %s: %lu\n", names[i], (unsigned long)deep[i]);
    return 0;
}
