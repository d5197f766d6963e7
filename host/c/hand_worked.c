/* A small car through set-up, aim, drive and read, tyres without a direction, wheels steered by an angle, and each refusal that a call can
 * give: 1, 3, 4, 5, 6, 2, 12, 10, 17, 7 and 8.
 *
 * It prints lines: a name, the number that the call answered, and each result as eight hex digits. host/run holds them to hand_worked.lines.
 * Those are worked out by hand from document 01 and, for sine and cosine, from crates/angle/specs/Angle.antt; the car's numbers are chosen
 * for that, and no line is ever taken from what a program prints. */
#include <math.h>
#include <stdio.h>
#include <string.h>

#include "car.h"

enum { WHEELS = 4, TOO_MANY_BODIES = VEHICLE_MOST_BODIES + 1 };

/* Where numbers stand in the settings, the chassis and the results, in the order of vehicle.h. */
enum { CONNECTION = 0, DIRECTION = CONNECTION + 3, AXLE = DIRECTION + 3, REST = AXLE + 3, RADIUS = REST + 1, STIFFNESS, COMPRESSION, DAMPING, TRAVEL, SIDEWAYS, SLIP, MOST, ROLL };
enum { ROTATION = 3, CENTRE = ROTATION + 4, LINVEL = CENTRE + 3, ANGVEL = LINVEL + 3, INVMASS = ANGVEL + 3, EFFECTIVE = INVMASS + 1, INERTIA = EFFECTIVE + 3 };
enum { SPEED_AND_FIRST_SIGHT = 1 + 3 + 3, VELOCITIES = 3 + 3, WAKE = VELOCITIES };

/* Where the first wheel's row begins in the table: after the kept chassis. The order in a row is the library's own: no host
 * needs it, and here any number of the row will do. */
enum { FIRST_ROW = VEHICLE_CHASSIS_LEN };

/* The greatest magnitude that a call takes: 2^20. */
static const float greatest = 1048576;

/* A wheel that hangs down. With a force of 16 over a step of 0.5, the grip limit is 8 times the slip. */
static const float hanging[VEHICLE_SETTINGS_LEN] = {0, 0, 0, 0, -1, 0, 0, 0, 1, 1, 1, 8, 2, 2, 0.5f, 1, 1, 1024, VEHICLE_ROLL_INFLUENCE};

/* Mass 4 and no inverse inertia, so that impulses only push. */
static const float standing[VEHICLE_CHASSIS_LEN] = {0, 0, 0, 0, 0, 0, 1, 0, 0, 0, 0, 0, 0, 0, 0, 0, 0.25f, 0.25f, 0.25f, 0.25f, 0, 0, 0, 0, 0, 0};

/* ---- What is printed. ---- */

static void show(const char *name, uint32_t number)
{
    printf("%s %lu", name, (unsigned long)number);
}

static void line(const char *name, uint32_t number)
{
    show(name, number);
    putchar('\n');
}

/* The pattern of x: one for every NaN, and one for both zeros. */
static uint32_t bits(float x)
{
    uint32_t pattern;
    float shown = x + 0.0f;
    if (x != x)
        return 0x7fc00000;
    memcpy(&pattern, &shown, sizeof pattern);
    return pattern;
}

static void numbers(const float *of, int count)
{
    int i;
    for (i = 0; i < count; i++)
        printf(" %08lx", (unsigned long)bits(of[i]));
}

/* ---- The calls on a car. ---- */

static uint32_t aim(struct car *car, const float chassis[VEHICLE_CHASSIS_LEN], float sights[VEHICLE_AIM_LEN])
{
    return vehicle_aim(car->table, VEHICLE_TABLE_LEN, car->whole, VEHICLE_WHOLE_LEN, chassis, VEHICLE_CHASSIS_LEN, sights, VEHICLE_AIM_LEN);
}

/* A velocity without a part upward. */
static uint32_t aim_at(struct car *car, float x, float z, float sights[VEHICLE_AIM_LEN])
{
    float chassis[VEHICLE_CHASSIS_LEN];
    memcpy(chassis, standing, sizeof chassis);
    chassis[LINVEL] = x;
    chassis[LINVEL + 2] = z;
    return aim(car, chassis, sights);
}

/* Each answer is of one kind; a hit is flat ground with this normal, straight up, at this time, and names no body. An upward cast gives zeros. */
static uint32_t drive_on(struct car *car, uint32_t kind, float time, float normal, size_t answers, size_t bodies, float driven[VEHICLE_DRIVE_LEN])
{
    static const float body[TOO_MANY_BODIES * VEHICLE_BODY_LEN] = {0};
    static const uint32_t dynamic[TOO_MANY_BODIES] = {0};
    static const uint32_t named[VEHICLE_MOST_WHEELS] = {0};
    uint32_t kinds[VEHICLE_MOST_WHEELS];
    float rays[VEHICLE_MOST_WHEELS * VEHICLE_RAY_LEN] = {0};
    int i;
    for (i = 0; i < VEHICLE_MOST_WHEELS; i++) {
        kinds[i] = kind;
        rays[i * VEHICLE_RAY_LEN] = time;
        rays[i * VEHICLE_RAY_LEN + 2] = normal;
    }
    return vehicle_drive(car->table, VEHICLE_TABLE_LEN, car->whole, VEHICLE_WHOLE_LEN, 0.5f, body, bodies * VEHICLE_BODY_LEN, dynamic, bodies, kinds, answers, named, answers, rays, answers * VEHICLE_RAY_LEN, driven, VEHICLE_DRIVE_LEN);
}

/* A hit is at three quarters of the ray, with a normal of length one. */
static uint32_t drive(struct car *car, uint32_t kind, size_t answers, size_t bodies, float driven[VEHICLE_DRIVE_LEN])
{
    return drive_on(car, kind, 0.75f, 1, answers, bodies, driven);
}

/* ---- The car. ---- */

static void add(struct car *car, float x, float z, float slip)
{
    float settings[VEHICLE_SETTINGS_LEN];
    memcpy(settings, hanging, sizeof settings);
    settings[CONNECTION] = x;
    settings[CONNECTION + 2] = z;
    settings[SLIP] = slip;
    line("add", add_wheel(car, settings));
}

static void add_four(struct car *car)
{
    add(car, 1, 1, 0.3125f);
    add(car, 1, -1, 0.3125f);
    add(car, -1, 1, 0.3125f);
    add(car, -1, -1, 8);
}

static void control_two(struct car *car)
{
    line("controls", set_controls(car, 0, 12, 0));
    line("controls", set_controls(car, 1, 0, 6));
}

static void show_drive(uint32_t number, const float driven[VEHICLE_DRIVE_LEN])
{
    show("drive", number);
    numbers(driven, VELOCITIES);
    puts(driven[WAKE] == 1 ? " wake" : "");
}

/* An aim with this velocity, of which the first sight is shown, and a drive with what the rays met. */
static void frame(struct car *car, float x, float z, uint32_t kind)
{
    float sights[VEHICLE_AIM_LEN] = {0}, driven[VEHICLE_DRIVE_LEN] = {0};
    show("aim", aim_at(car, x, z, sights));
    numbers(sights, SPEED_AND_FIRST_SIGHT);
    putchar('\n');
    show_drive(drive(car, kind, WHEELS, 0, driven), driven);
}

static void show_wheel(const struct car *car, uint32_t wheel)
{
    float tyre[VEHICLE_READ_LEN] = {0};
    show("read", read_wheel(car, wheel, tyre));
    numbers(tyre, VEHICLE_READ_LEN);
    putchar('\n');
}

/* The first frame: two wheels that slide, one with its engine and one on its brake, one that slides sideways, and one that grips.
 * The second is a jump: no ray meets anything. The old centre has the length of the drive before, the settled one the rest length, and the wheel
 * spins on. */
static void two_frames(struct car *car)
{
    uint32_t wheel;
    frame(car, 12, 5, VEHICLE_HIT);
    for (wheel = 0; wheel < WHEELS; wheel++)
        show_wheel(car, wheel);
    frame(car, -12, 5, VEHICLE_NOTHING);
    show_wheel(car, 0);
}

/* ---- Roll influences. ---- */

static uint32_t add_leaning(struct car *car, float roll)
{
    float settings[VEHICLE_SETTINGS_LEN];
    memcpy(settings, hanging, sizeof settings);
    settings[SLIP] = 8;
    settings[ROLL] = roll;
    return add_wheel(car, settings);
}

/* Two wheels at the origin of a chassis that drifts at 5 along z, their axis, with an inverse inertia of 1/2 about x and its centre of mass
 * 1 above the ground. Each spring pushes up by 8, which turns nothing: the velocity upward becomes 16 / 4. Rule 7: each side demand is
 * -0.2 * 5 / (1/4 + (1/2)^2), -2, and neither slides. Rule 9: it is put in below the centre of mass by the roll influence, so it turns the
 * chassis about x by 2 * roll / 2, and both take 4 / 4 from the drift. */
static void lean(float first, float second)
{
    struct car car = {{0}, {0}};
    float chassis[VEHICLE_CHASSIS_LEN], sights[VEHICLE_AIM_LEN], driven[VEHICLE_DRIVE_LEN] = {0};
    set_up(&car, 1, 0);
    add_leaning(&car, first);
    add_leaning(&car, second);
    memcpy(chassis, standing, sizeof chassis);
    chassis[CENTRE + 1] = -0.5f;
    chassis[LINVEL + 2] = 5;
    chassis[INERTIA] = 0.5f;
    aim(&car, chassis, sights);
    show("lean", drive(&car, VEHICLE_HIT, 2, 0, driven));
    numbers(driven, VELOCITIES);
    putchar('\n');
}

static void leans(void)
{
    struct car car = {{0}, {0}};
    lean(0, 0);
    lean(0.5f, 0.5f);
    lean(1, 0.25f);
    set_up(&car, 1, 0);
    line("roll influence -0", add_leaning(&car, -0.0f));
    line("roll influence 1", add_leaning(&car, 1));
    line("roll influence 1 + 2^-23", add_leaning(&car, 1.00000011920928955078125f));
    line("roll influence -2^-20", add_leaning(&car, -1 / greatest));
    line("roll influence 2^21", add_leaning(&car, 2 * greatest));
}

/* ---- Tyres without a direction. ---- */

/* A car of one wheel, at the origin, that brakes: its direction along y, its axle along y or along z, and its engine. */
static void add_odd(struct car *car, float direction, int axle, float engine)
{
    float settings[VEHICLE_SETTINGS_LEN];
    memcpy(settings, hanging, sizeof settings);
    settings[DIRECTION + 1] = direction;
    settings[AXLE + 2] = 0;
    settings[axle] = 1;
    settings[SLIP] = 8;
    set_up(car, 1, 0);
    add_wheel(car, settings);
    set_controls(car, 0, engine, 6);
}

/* A frame at (12, 0, 5) on ground with this normal, straight up, and the wheel after it. */
static void odd_frame(struct car *car, uint32_t kind, float time, float normal)
{
    float sights[VEHICLE_AIM_LEN], driven[VEHICLE_DRIVE_LEN] = {0};
    aim_at(car, 12, 5, sights);
    show_drive(drive_on(car, kind, time, normal, 1, 0, driven), driven);
    show_wheel(car, 0);
}

/* An axle straight up, in three frames. Rule 7 each time: the axis is the axle less normal times (axle dot normal), made of length one, and
 * the forward direction is normal times axis, made of length one.
 * On a normal of length one nothing is left of the axle: (0, 1 - 1, 0). The axis falls back to zero, and with it the forward direction.
 * Both demands are zero, on the brake too: the wheel's only impulse is its spring's, 16 * 0.5 upward, 2 on a mass of 4.
 * Then it is in the air, and nothing falls back. Its centre has the length 0.5 of the frame before, the settled one the rest length.
 * Then the normal n is 1 - 2^-13, and in the band: its square is 1 - 2^-12 + 2^-26, rounded to 1 - 2^-12. Rule 4's inverse is 1 / n, rounded
 * to 1 + 2^-13, so that the force is 16 + 2^-9; times n it is 16 - 2^-22, rounded to 16, and the spring's impulse is 8 again. Of the axle
 * 1 - (1 - 2^-12) is left, 2^-12 along y: it has a length, and the axis is (0, 1, 0). The normal times that is zero, so that the forward
 * direction alone falls back. The tyre does not brake, but holds against what it takes for a drift, 2 upward: the side demand is
 * -0.2 * 2 / (1/4), eight times the float next to -0.2, and a quarter of that taken from 2 leaves, rounded, the float next to 1.6. */
static void upright_axle(void)
{
    struct car car = {{0}, {0}};
    add_odd(&car, -1, AXLE + 1, 0);
    odd_frame(&car, VEHICLE_HIT, 0.75f, 1);
    odd_frame(&car, VEHICLE_NOTHING, 0, 0);
    odd_frame(&car, VEHICLE_HIT, 0.75f, 1 - 1.0f / 8192);
}

/* The first frame of the same wheel with an engine: the forward impulse is 12 * 0.5, a number, and the velocity is that of before, since it
 * has no direction. */
static void engine_without_direction(void)
{
    struct car car = {{0}, {0}};
    add_odd(&car, -1, AXLE + 1, 12);
    odd_frame(&car, VEHICLE_HIT, 0.75f, 1);
}

/* A suspension without a direction, in a hit at time 0 with a zero normal: rule 3 takes minus the direction, zero. Rule 4: normal dot
 * direction is 0, so the inverse is 10; the length is -1, clamped to 0.5. The force is 8 * 0.5 * 10 * 4, 160, and pushes along no normal.
 * The axis is the axle, (0, 0, 1); the forward direction, zero times that, falls back. The tyre does not brake, but holds to the side:
 * -0.2 * 5 / (1/4), -4, takes 1 of the drift of 5. */
static void no_suspension(void)
{
    struct car car = {{0}, {0}};
    add_odd(&car, 0, AXLE + 2, 0);
    odd_frame(&car, VEHICLE_HIT, 0, 0);
}

/* ---- Wheels steered by an angle. ---- */

enum { AXLE_READ = 6 };

/* Each number of a rotation that takes x to y, y to z and z to x; nothing is rounded. */
static const float third = 0.5f;

/* An aim of a chassis that stands, turned by that rotation or not, a drive in the air, and each wheel's axle. */
static void show_axles(struct car *car, const char *name, int turned)
{
    float chassis[VEHICLE_CHASSIS_LEN], sights[VEHICLE_AIM_LEN], driven[VEHICLE_DRIVE_LEN], tyre[VEHICLE_READ_LEN] = {0};
    uint32_t wheel, i;
    memcpy(chassis, standing, sizeof chassis);
    for (i = 0; turned && i < 4; i++)
        chassis[ROTATION + i] = third;
    aim(car, chassis, sights);
    drive(car, VEHICLE_NOTHING, car->whole[0], 0, driven);
    for (wheel = 0; wheel < car->whole[0]; wheel++) {
        show(name, read_wheel(car, wheel, tyre));
        numbers(tyre + AXLE_READ, 3);
        putchar('\n');
    }
}

/* Two wheels with axles along z whose suspensions hang down, one by a direction of length two: minus that, made of length one, is the same,
 * (0, 1, 0), and so both axles are the same in every line. Unit below is 2^-30, in which the sums of sine and cosine are taken, each quotient
 * cut to a whole number; a step is 2^-24, 64 units, of a float below 1. The rotation is (0, s, 0, c), which takes (0, 0, 1) to
 * (s * 2c, 0, c * c - s * s), each operation rounded.
 * Angle 0: s is 0 and c is 1.
 * Angle 2^-10: the half angle h is 2^-11, and its square 256 units. The cosine is 1 less 256 / 2, or 127 units since what is taken half of is
 * a trifle less: rounded, c is 1 - 2^-23. The sine is h times 1 less 256 / 6, 42 units: rounded, s is h * (1 - 2^-24). Then c * c is
 * 1 - 2^-22, s * s is 2^-22 * (1 - 2^-23), and the one less the other 1 - 2^-21, all rounded. s * 2c is 2^-10 * (1 - 3 * 2^-24), rounded.
 * Angle -2^-10: -s in place of s. The axle turns to the other side.
 * Angle 1: h is 0.5, its square 2^28 units. The cosine: 2^28 / 132 is 2033601, the rest to 2^30 by 360 is 2976967, that rest by 224 4780200, by
 * 120 8908013, by 48 22184037, by 8 131444723, and the last rest 942297101 units, 14723392.2 steps. The sine: 2^28 / 110 is 2440322, the rest
 * by 288 3719796, by 168 6369178, by 80 13342158, by 24 44183319, and the last rest 1029558505 units, 16086851.6 steps, times h. So c is
 * 14723392 steps and s is 8043426. c * c is 12920991.9 steps and s * s, which has quarter steps, 3856223.93: rounded, 12920992 less 3856224
 * is 9064768, 8a5140 in hex. s * 2c is 14117540.6 steps, rounded d76aa5.
 * Then the chassis is turned, which takes the direction to (0, 0, -1) and the axle to (1, 0, 0). With no new control the wheel turns about z
 * now, from x toward y by the same numbers. Last it is given a rotation in place of the angle: it takes the axle to (1, 0, 0) where the
 * chassis is not turned, and to (0, 1, 0) where it is, since it stays in the world. */
static void steered_axles(void)
{
    const float rotation[VEHICLE_CONTROLS_LEN] = {0, 0, third, third, third, third};
    static const float angles[] = {0, 1.0f / 1024, -1.0f / 1024, 1};
    static const char *const names[] = {"angle 0", "angle 2^-10", "angle -2^-10", "angle 1"};
    struct car car = {{0}, {0}};
    float settings[VEHICLE_SETTINGS_LEN];
    uint32_t wheel, i;
    memcpy(settings, hanging, sizeof settings);
    set_up(&car, 1, 0);
    add_wheel(&car, settings);
    settings[DIRECTION + 1] = -2;
    add_wheel(&car, settings);
    for (i = 0; i < 4; i++) {
        for (wheel = 0; wheel < 2; wheel++)
            line("steer", steer(&car, wheel, 0, 0, angles[i]));
        show_axles(&car, names[i], 0);
    }
    show_axles(&car, "turned chassis", 1);
    for (wheel = 0; wheel < 2; wheel++)
        line("rotation", vehicle_set_controls(car.table, VEHICLE_TABLE_LEN, car.whole, VEHICLE_WHOLE_LEN, wheel, rotation, VEHICLE_CONTROLS_LEN));
    show_axles(&car, "chassis not turned", 0);
    show_axles(&car, "turned chassis", 1);
}

/* One wheel with an engine of 12 and an angle of 2^-10 on a chassis that stands on flat ground. The axle's parts are those above, x along x and
 * z along z: the sum of their squares, 2^-20 * (1 - 6 * 2^-24) and 1 - 2^-20, is 1, rounded, so that rule 7's axis is the axle itself and its
 * forward direction, normal crossed with axis, (z, 0, -x). The spring's impulse of 8 gives 2 upward, which neither direction sees. The forward
 * impulse is 6: 6 * z is 6 - 6 * 2^-21, 6 * x is 2^-10 * (6 - 2^-20), rounded, and a quarter of each is the velocity: along x, and toward -z. */
static void steered_engine(void)
{
    struct car car = {{0}, {0}};
    float sights[VEHICLE_AIM_LEN], driven[VEHICLE_DRIVE_LEN] = {0};
    add_odd(&car, -1, AXLE + 2, 0);
    line("steer", steer(&car, 0, 12, 0, 1.0f / 1024));
    line("aim", aim_at(&car, 0, 0, sights));
    show_drive(drive(&car, VEHICLE_HIT, 1, 0, driven), driven);
}

/* ---- Each refusal number, met by a call. ---- */

/* Refusal 1, of the driven car's table. */
static void refused_set_up(struct car *car)
{
    line("axis 3", set_up(car, 3, 0));
    line("table too short", vehicle_set_up(car->table + 1, VEHICLE_TABLE_LEN - 1, car->whole, VEHICLE_WHOLE_LEN, 1, 0));
}

/* Refusals 4 and 10. */
static void refused_controls(struct car *car)
{
    line("controls of wheel 4", set_controls(car, 4, 0, 0));
    line("brake -1", set_controls(car, 0, 0, -1));
}

/* Refusals 1, 4, 2 and 10 of an angle: 2 is the last that is taken, on both sides. */
static void refused_angles(struct car *car)
{
    static const float controls[VEHICLE_CONTROLS_LEN] = {0};
    line("six numbers", vehicle_set_controls_by_angle(car->table, VEHICLE_TABLE_LEN, car->whole, VEHICLE_WHOLE_LEN, 0, controls, VEHICLE_CONTROLS_LEN));
    line("angle of wheel 4", steer(car, 4, 0, 0, 0));
    line("angle NaN", steer(car, 0, 0, 0, NAN));
    line("angle 2^21", steer(car, 0, 0, 0, 2 * greatest));
    line("angle 2", steer(car, 3, 0, 0, 2));
    line("angle 2 + 2^-22", steer(car, 3, 0, 0, 2.0000002384185791015625f));
    line("angle -2", steer(car, 3, 0, 0, -2));
    line("angle -2 - 2^-22", steer(car, 3, 0, 0, -2.0000002384185791015625f));
    line("brake -1 with an angle", steer(car, 3, 0, -1, 0));
}

/* An aim of one wheel whose direction has this part along y and no other, steered by this angle, at an inverse mass. */
static uint32_t aim_along(float direction, float angle, float invmass)
{
    struct car car = {{0}, {0}};
    float chassis[VEHICLE_CHASSIS_LEN], sights[VEHICLE_AIM_LEN];
    add_odd(&car, direction, AXLE + 2, 0);
    steer(&car, 0, 0, 0, angle);
    memcpy(chassis, standing, sizeof chassis);
    chassis[INVMASS] = invmass;
    return aim(&car, chassis, sights);
}

/* Refusal 17, for angle 0 too; 10 comes before it. The square of 2^-75 is 2^-150, half of the least float, and rounded to 0. That of 2^-74 is
 * 2^-148, a float, whose root is 2^-74, so that nothing is wrong with the axis. Of 1.25 * 2^-74 it is 1.5625 * 2^-148, 3.125 of the least
 * float, rounded to 3: the axis has a square of 3.125 / 3, and with the squares 0.708 and 0.292 of sine and cosine of 1 the rotation has 1.03.
 * Without an angle a wheel needs no direction. */
static void refused_turns(void)
{
    const float small = 1 / greatest, tiny = small * small * small / 16384; /* 2^-74 */
    struct car car = {{0}, {0}};
    float sights[VEHICLE_AIM_LEN];
    line("no direction", aim_along(0, 2, 0.25f));
    line("no direction, angle 0", aim_along(0, 0, 0.25f));
    line("no direction, no mass", aim_along(0, 2, 0));
    line("direction 2^-75", aim_along(tiny / 2, 2, 0.25f));
    line("direction 2^-74", aim_along(tiny, 2, 0.25f));
    line("direction 1.25 * 2^-74", aim_along(tiny * 1.25f, 2, 0.25f));
    line("direction 1.25 * 2^-74, angle 0", aim_along(tiny * 1.25f, 0, 0.25f));
    add_odd(&car, 0, AXLE + 2, 0);
    line("no direction, no angle", aim_at(&car, 0, 0, sights));
}

/* Refusal 5 of a drive, 2 of a number handed in, and 5 of a read once an aim was accepted. */
static void refused_moments(struct car *car)
{
    float sights[VEHICLE_AIM_LEN], driven[VEHICLE_DRIVE_LEN], tyre[VEHICLE_READ_LEN];
    line("drive not aimed", drive(car, VEHICLE_HIT, WHEELS, 0, driven));
    line("aim with a NaN", aim_at(car, NAN, 0, sights));
    line("aim", aim_at(car, 0, 0, sights));
    line("read not driven", read_wheel(car, 0, tyre));
}

/* Refusal 6: three answers for four wheels, and 65 bodies. */
static void refused_lists(struct car *car)
{
    float driven[VEHICLE_DRIVE_LEN];
    line("three answers", drive(car, VEHICLE_HIT, WHEELS - 1, 0, driven));
    line("65 bodies", drive(car, VEHICLE_HIT, WHEELS, TOO_MANY_BODIES, driven));
}

/* Refusal 12: normals of length two, zero normals but for time 0, and zero upward normals at time 0 too. Then the drive whose rays start
 * inside the ground, which is accepted. */
static void refused_normals(struct car *car)
{
    float driven[VEHICLE_DRIVE_LEN];
    line("normals two long", drive_on(car, VEHICLE_HIT, 0.75f, 2, WHEELS, 0, driven));
    line("zero normals", drive_on(car, VEHICLE_HIT, 0.75f, 0, WHEELS, 0, driven));
    line("zero upward normals", drive_on(car, VEHICLE_HIT_UP, 0, 0, WHEELS, 0, driven));
    line("zero normals at time 0", drive_on(car, VEHICLE_HIT, 0, 0, WHEELS, 0, driven));
}

/* Refusal 2, of a stored number: the table is not ours any more. */
static void refused_stored(struct car *car)
{
    car->table[FIRST_ROW] = 2199023255552.0f; /* 2^41 */
    line("stored above 2^40", set_controls(car, 0, 0, 0));
}

static uint32_t add_with_radius(struct car *car, float radius)
{
    float settings[VEHICLE_SETTINGS_LEN];
    memcpy(settings, hanging, sizeof settings);
    settings[RADIUS] = radius;
    return add_wheel(car, settings);
}

/* Refusal 3, which comes before 10. */
static void refused_wheels(void)
{
    struct car car = {{0}, {0}};
    int i;
    set_up(&car, 1, 0);
    line("radius 0", add_with_radius(&car, 0));
    for (i = 0; i < VEHICLE_MOST_WHEELS; i++)
        add_with_radius(&car, 1);
    line("wheel 17", add_with_radius(&car, 1));
    line("wheel 17 with radius 0", add_with_radius(&car, 0));
}

/* One wheel at full side speed on a chassis of inverse mass 2^-20, with a side stiffness and an effective inverse mass. */
static uint32_t step_of(float sideways, float effective)
{
    struct car car = {{0}, {0}};
    float settings[VEHICLE_SETTINGS_LEN], chassis[VEHICLE_CHASSIS_LEN], sights[VEHICLE_AIM_LEN], driven[VEHICLE_DRIVE_LEN];
    int i;
    memcpy(settings, hanging, sizeof settings);
    settings[STIFFNESS] = greatest;
    settings[COMPRESSION] = 0;
    settings[DAMPING] = 0;
    settings[SIDEWAYS] = sideways;
    settings[MOST] = greatest;
    memcpy(chassis, standing, sizeof chassis);
    chassis[LINVEL + 2] = greatest;
    chassis[INVMASS] = 1 / greatest;
    for (i = 0; i < 3; i++)
        chassis[EFFECTIVE + i] = effective;
    set_up(&car, 1, 0);
    add_wheel(&car, settings);
    aim(&car, chassis, sights);
    return drive(&car, VEHICLE_HIT, 1, 0, driven);
}

/* Refusals 7 and 8. */
static void refused_steps(void)
{
    line("demand above 2^40", step_of(greatest, 1));
    line("velocity above 2^40", step_of(1, greatest));
}

int main(void)
{
    struct car car = {{0}, {0}};
    line("set up", set_up(&car, 1, 0));
    add_four(&car);
    control_two(&car);
    two_frames(&car);
    leans();
    upright_axle();
    engine_without_direction();
    no_suspension();
    steered_axles();
    steered_engine();
    refused_set_up(&car);
    refused_controls(&car);
    refused_angles(&car);
    refused_turns();
    refused_moments(&car);
    refused_lists(&car);
    refused_normals(&car);
    refused_stored(&car);
    refused_wheels();
    refused_steps();
    return 0;
}
