/* A small car through the C interface: two frames whose numbers can be worked out by hand, and some refusals. Each line is asserted. */
#include <stdio.h>
#include <stdlib.h>
#include <string.h>

#include "car.h"

static int checks = 0;

/* Unlike assert, it stays in a build with NDEBUG. */
static void check(int holds, const char *what, int line)
{
    checks++;
    if (!holds) {
        fprintf(stderr, "small_car.c:%d: %s\n", line, what);
        exit(1);
    }
}
#define CHECK(holds) check(holds, #holds, __LINE__)

enum { WHEELS = 4, COUNT = 0 };

/* Mass 4 and no inverse inertia, so that impulses only push. */
static uint32_t aim(struct car *car, float x, float z, float sights[VEHICLE_AIM_LEN])
{
    float chassis[VEHICLE_CHASSIS_LEN] = {0};
    int i;
    chassis[6] = 1; /* rotation: none */
    chassis[10] = x; /* linear velocity */
    chassis[12] = z;
    for (i = 16; i < 20; i++)
        chassis[i] = 0.25f; /* inverse mass, effective inverse masses */
    return vehicle_aim(car->table, VEHICLE_TABLE_LEN, car->whole, VEHICLE_WHOLE_LEN, chassis, VEHICLE_CHASSIS_LEN, sights, VEHICLE_AIM_LEN);
}

/* Every wheel's ray met the same: flat ground at three quarters of it, or nothing. No ground body is named. */
static uint32_t drive(struct car *car, float dt, uint32_t kind, float driven[VEHICLE_DRIVE_LEN])
{
    static const float no_body[1] = {0};
    static const uint32_t no_flag[1] = {0};
    static const uint32_t named[WHEELS] = {0};
    uint32_t kinds[WHEELS];
    float rays[WHEELS * VEHICLE_RAY_LEN] = {0};
    int i;
    for (i = 0; i < WHEELS; i++) {
        kinds[i] = kind;
        rays[i * VEHICLE_RAY_LEN] = 0.75f;  /* time */
        rays[i * VEHICLE_RAY_LEN + 2] = 1; /* normal */
    }
    return vehicle_drive(car->table, VEHICLE_TABLE_LEN, car->whole, VEHICLE_WHOLE_LEN, dt, no_body, 0, no_flag, 0, kinds, WHEELS, named, WHEELS, rays, WHEELS * VEHICLE_RAY_LEN, driven, VEHICLE_DRIVE_LEN);
}

static int are(const float *numbers, float x, float y, float z)
{
    return numbers[0] == x && numbers[1] == y && numbers[2] == z;
}

static void sizes(void)
{
    CHECK(vehicle_table_len() == VEHICLE_TABLE_LEN);
    CHECK(vehicle_whole_len() == VEHICLE_WHOLE_LEN);
    CHECK(vehicle_settings_len() == VEHICLE_SETTINGS_LEN);
    CHECK(vehicle_controls_len() == VEHICLE_CONTROLS_LEN);
    CHECK(vehicle_controls_by_angle_len() == VEHICLE_CONTROLS_BY_ANGLE_LEN);
    CHECK(vehicle_chassis_len() == VEHICLE_CHASSIS_LEN);
    CHECK(vehicle_body_len() == VEHICLE_BODY_LEN);
    CHECK(vehicle_ray_len() == VEHICLE_RAY_LEN);
    CHECK(vehicle_aim_len() == VEHICLE_AIM_LEN);
    CHECK(vehicle_drive_len() == VEHICLE_DRIVE_LEN);
    CHECK(vehicle_read_len() == VEHICLE_READ_LEN);
}

/* Connection, direction, axle, rest, radius, stiffness, compression, damping, travel, side, slip, most, roll influence. */
static void build(struct car *car)
{
    float wheel[VEHICLE_SETTINGS_LEN] = {1, 0, 1, 0, -1, 0, 0, 0, 1, 1, 1, 8, 2, 2, 0.5f, 1, 0.3125f, 1024, VEHICLE_ROLL_INFLUENCE};
    CHECK(set_up(car, 1, 0) == VEHICLE_ACCEPTED);
    CHECK(add_wheel(car, wheel) == VEHICLE_ACCEPTED);
    wheel[2] = -1;
    CHECK(add_wheel(car, wheel) == VEHICLE_ACCEPTED);
    wheel[0] = -1;
    wheel[2] = 1;
    CHECK(add_wheel(car, wheel) == VEHICLE_ACCEPTED);
    wheel[2] = -1;
    wheel[16] = 8; /* slip */
    CHECK(add_wheel(car, wheel) == VEHICLE_ACCEPTED);
    CHECK(car->whole[COUNT] == WHEELS);
    CHECK(set_controls(car, 0, 12, 0) == VEHICLE_ACCEPTED);
    CHECK(set_controls(car, 1, 0, 6) == VEHICLE_ACCEPTED);
    wheel[10] = 0; /* radius */
    CHECK(add_wheel(car, wheel) == VEHICLE_OUT_OF_RANGE);
    wheel[10] = 1;
    wheel[18] = 1.5f; /* roll influence */
    CHECK(add_wheel(car, wheel) == VEHICLE_OUT_OF_RANGE);
}

static void frames(struct car *car)
{
    float sights[VEHICLE_AIM_LEN], driven[VEHICLE_DRIVE_LEN], tyre[VEHICLE_READ_LEN];
    CHECK(read_wheel(car, 0, tyre) == VEHICLE_WRONG_MOMENT);
    CHECK(drive(car, 0.5f, VEHICLE_HIT, driven) == VEHICLE_WRONG_MOMENT);

    CHECK(aim(car, 12, 5, sights) == VEHICLE_ACCEPTED);
    CHECK(sights[0] == 13);
    CHECK(are(sights + 1, 1, 0, 1) && are(sights + 4, 0, -2, 0));
    CHECK(read_wheel(car, 0, tyre) == VEHICLE_WRONG_MOMENT);
    CHECK(drive(car, 0.5f, VEHICLE_HIT, driven) == VEHICLE_ACCEPTED);
    CHECK(are(driven, 12, 8, 2.375f) && are(driven + 3, 0, 0, 0) && driven[6] == 1);
    CHECK(read_wheel(car, 0, tyre) == VEHICLE_ACCEPTED);
    CHECK(are(tyre, 1, 0, 1) && tyre[9] == 0.5f && tyre[10] == 16);
    CHECK(are(tyre + VEHICLE_READ_SETTLED, 1, -0.5f, 1));
    CHECK(tyre[11] == 3 && tyre[12] == -2 && tyre[13] == 0.5f && tyre[14] == 6);
    CHECK(tyre[VEHICLE_READ_NO_AXIS] == 0 && tyre[VEHICLE_READ_NO_FORWARD] == 0);
    CHECK(read_wheel(car, 3, tyre) == VEHICLE_ACCEPTED && tyre[13] == 1);
    CHECK(read_wheel(car, WHEELS, tyre) == VEHICLE_NO_SUCH_WHEEL);

    CHECK(aim(car, -12, 5, sights) == VEHICLE_ACCEPTED && sights[0] == -13);
    CHECK(drive(car, 0.5f, VEHICLE_NOTHING, driven) == VEHICLE_ACCEPTED);
    CHECK(are(driven, -12, 0, 5));
    CHECK(read_wheel(car, 0, tyre) == VEHICLE_ACCEPTED && are(tyre, 1, -0.5f, 1) && tyre[9] == 1);
    CHECK(are(tyre + VEHICLE_READ_SETTLED, 1, -1, 1));
}

/* The first wheel's axle lies along the ground's normal: it has no direction on the ground, and the others have one. */
static void dead_tyre(void)
{
    struct car car = {{0}, {0}};
    float wheel[VEHICLE_SETTINGS_LEN] = {0, 0, 0, 0, -1, 0, 0, 1, 0, 1, 1, 8, 2, 2, 0.5f, 1, 8, 1024, VEHICLE_ROLL_INFLUENCE};
    float sights[VEHICLE_AIM_LEN], driven[VEHICLE_DRIVE_LEN], tyre[VEHICLE_READ_LEN];
    int i;
    CHECK(set_up(&car, 1, 0) == VEHICLE_ACCEPTED);
    for (i = 0; i < WHEELS; i++) {
        CHECK(add_wheel(&car, wheel) == VEHICLE_ACCEPTED);
        wheel[7] = 0; /* axle */
        wheel[8] = 1;
    }
    CHECK(aim(&car, 12, 5, sights) == VEHICLE_ACCEPTED);
    CHECK(drive(&car, 0.5f, VEHICLE_HIT, driven) == VEHICLE_ACCEPTED);
    CHECK(read_wheel(&car, 0, tyre) == VEHICLE_ACCEPTED);
    CHECK(tyre[VEHICLE_READ_NO_AXIS] == 1 && tyre[VEHICLE_READ_NO_FORWARD] == 1);
    CHECK(tyre[11] == 0 && tyre[12] == 0);
    CHECK(read_wheel(&car, 1, tyre) == VEHICLE_ACCEPTED);
    CHECK(tyre[VEHICLE_READ_NO_AXIS] == 0 && tyre[VEHICLE_READ_NO_FORWARD] == 0);
}

static int is_near(float number, double expected)
{
    return number - expected < 1e-6 && expected - number < 1e-6;
}

/* The example of docs/NUMBERS.md: 0.5 about a suspension that hangs down turns the axle from z toward x, and an engine of 12 over 0.5, on a mass of 4,
 * pushes by 1.5 along the rolling direction, toward -z. The chassis' rotation takes x to y, y to z and z to x: in the next frame the axle turns
 * from x toward y, with no new control. Only the first wheel is steered and pulls. */
static void steered(void)
{
    static const double sine = 0.479426, cosine = 0.877583;
    struct car car = {{0}, {0}};
    float wheel[VEHICLE_SETTINGS_LEN] = {0, 0, 0, 0, -1, 0, 0, 0, 1, 1, 1, 8, 2, 2, 0.5f, 1, 8, 1024, VEHICLE_ROLL_INFLUENCE};
    float chassis[VEHICLE_CHASSIS_LEN] = {0, 0, 0, 0.5f, 0.5f, 0.5f, 0.5f, 0, 0, 0, 0, 0, 0, 0, 0, 0, 0.25f, 0.25f, 0.25f, 0.25f, 0, 0, 0, 0, 0, 0};
    float sights[VEHICLE_AIM_LEN], driven[VEHICLE_DRIVE_LEN], tyre[VEHICLE_READ_LEN];
    int i;
    CHECK(set_up(&car, 1, 0) == VEHICLE_ACCEPTED);
    for (i = 0; i < WHEELS; i++)
        CHECK(add_wheel(&car, wheel) == VEHICLE_ACCEPTED);
    CHECK(steer(&car, 0, 12, 0, 0.5f) == VEHICLE_ACCEPTED);
    CHECK(aim(&car, 0, 0, sights) == VEHICLE_ACCEPTED);
    CHECK(drive(&car, 0.5f, VEHICLE_HIT, driven) == VEHICLE_ACCEPTED);
    CHECK(read_wheel(&car, 0, tyre) == VEHICLE_ACCEPTED);
    CHECK(is_near(tyre[6], sine) && tyre[7] == 0 && is_near(tyre[8], cosine));
    CHECK(read_wheel(&car, 1, tyre) == VEHICLE_ACCEPTED && are(tyre + 6, 0, 0, 1));
    CHECK(is_near(driven[0] / 1.5f, cosine) && is_near(driven[2] / 1.5f, -sine));

    CHECK(vehicle_aim(car.table, VEHICLE_TABLE_LEN, car.whole, VEHICLE_WHOLE_LEN, chassis, VEHICLE_CHASSIS_LEN, sights, VEHICLE_AIM_LEN) == VEHICLE_ACCEPTED);
    CHECK(drive(&car, 0.5f, VEHICLE_NOTHING, driven) == VEHICLE_ACCEPTED);
    CHECK(read_wheel(&car, 0, tyre) == VEHICLE_ACCEPTED);
    CHECK(is_near(tyre[6], cosine) && is_near(tyre[7], sine) && tyre[8] == 0);

    wheel[4] = 0; /* direction */
    CHECK(add_wheel(&car, wheel) == VEHICLE_ACCEPTED);
    CHECK(steer(&car, WHEELS, 0, 0, 0) == VEHICLE_ACCEPTED);
    CHECK(aim(&car, 0, 0, sights) == VEHICLE_BAD_TURN);
    CHECK(set_controls(&car, WHEELS, 0, 0) == VEHICLE_ACCEPTED);
    CHECK(aim(&car, 0, 0, sights) == VEHICLE_ACCEPTED);
}

/* Each refusal leaves the car and the results as they were, bit for bit. */
static void refusals(struct car *car)
{
    struct car before;
    float sights[VEHICLE_AIM_LEN], driven[VEHICLE_DRIVE_LEN], results[VEHICLE_DRIVE_LEN];
    CHECK(aim(car, 12, 5, sights) == VEHICLE_ACCEPTED);
    memset(driven, 0x5a, sizeof driven);
    memcpy(results, driven, sizeof driven);
    memcpy(&before, car, sizeof before);
    CHECK(set_up(car, 3, 0) == VEHICLE_NO_VEHICLE);
    CHECK(set_controls(car, 0, 12, -1) == VEHICLE_OUT_OF_RANGE);
    CHECK(set_controls(car, 0, 2097152, 0) == VEHICLE_BAD_NUMBER);
    CHECK(steer(car, 0, 12, 0, 2.5f) == VEHICLE_OUT_OF_RANGE);
    CHECK(steer(car, 0, 12, 0, 2097152) == VEHICLE_BAD_NUMBER);
    CHECK(steer(car, WHEELS, 12, 0, 0) == VEHICLE_NO_SUCH_WHEEL);
    CHECK(drive(car, 2, VEHICLE_HIT, driven) == VEHICLE_OUT_OF_RANGE);
    CHECK(drive(car, 0.5f, 3, driven) == VEHICLE_BAD_LISTS);
    CHECK(vehicle_drive(car->table, VEHICLE_TABLE_LEN - 1, car->whole, VEHICLE_WHOLE_LEN, 0.5f, results, 0, before.whole, 0, before.whole, 0, before.whole, 0, results, 0, driven, VEHICLE_DRIVE_LEN) == VEHICLE_NO_VEHICLE);
    CHECK(memcmp(&before, car, sizeof before) == 0);
    CHECK(memcmp(results, driven, sizeof driven) == 0);
}

int main(void)
{
    struct car *car = (struct car *)malloc(sizeof *car);
    CHECK(car != NULL);
    memset(car, 0xff, sizeof *car); /* set-up takes any contents */
    sizes();
    build(car);
    frames(car);
    dead_tyre();
    steered();
    refusals(car);
    CHECK(vehicle_root(4) == 2);
    CHECK(vehicle_sine(0) == 0 && vehicle_cosine(0) == 1);
    free(car);
    printf("small_car: %d checks hold\n", checks);
    return 0;
}
