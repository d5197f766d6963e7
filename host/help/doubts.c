/* What is accepted and hardly meant. Each doubt says why: a number that no car has is most often another number in its place. */
#include <math.h>

#include "fields.h"
#include "finding.h"

/* From where on a number is doubted. Forces are newtons, impulses newton seconds, for a car of a tonne or two. */
#define UNIT_LOW 0.9f
#define UNIT_HIGH 1.1f
#define HALF 0.5f
#define UPRIGHT 0.9f
#define MOST_INVERSE_MASS 1.0f
#define MOST_INVERSE_INERTIA 10.0f
#define MOST_LEVER 10.0f
#define MOST_ENGINE 50000.0f
#define MOST_BRAKE 2000.0f
#define MOST_STEP 0.1f

/* Findings as they are gathered. */
struct doubts {
    vehicle_finding *list;
    size_t most, count;
};

static void doubt(struct doubts *doubts, vehicle_finding finding)
{
    if (doubts->count < doubts->most)
        doubts->list[doubts->count] = finding;
    doubts->count++;
}

static float dot(const float *a, const float *b)
{
    return (a[0] * b[0] + a[1] * b[1]) + a[2] * b[2];
}

static float length(const float *v)
{
    return vehicle_root(dot(v, v));
}

static int is_unit(const float *v)
{
    return length(v) >= UNIT_LOW && length(v) <= UNIT_HIGH;
}

/* ---- Set up ---- */

size_t vehicle_doubts_set_up(uint32_t up, uint32_t forward, vehicle_finding *list, size_t most)
{
    struct doubts doubts = {list, most, 0};
    if (up == forward)
        doubt(&doubts, found("forward axis", forward, "it is the up axis too", 0, "The speed would have the sign of going up and down. Hand in two, such as y up and x forward."));
    return doubts.count;
}

/* ---- A wheel ---- */

static void unit(struct doubts *doubts, uint32_t wheel, const char *field, const float *v, const char *why)
{
    if (!is_unit(v))
        doubt(doubts, of_wheel(found(field, length(v), "a direction has length one", 0, why), wheel));
}

/* How far the wheel rolls along the forward axis, on ground that the up axis stands on: the part of up × axle there. */
static float rolls_forward(const uint32_t *whole, const float *axle)
{
    uint32_t next = (whole[UP] + 1) % 3, last = (whole[UP] + 2) % 3;
    return whole[FORWARD] == next ? -axle[last] : axle[next];
}

static void directions(struct doubts *doubts, const uint32_t *whole, const float *settings)
{
    const float *direction = settings + DIRECTION, *axle = settings + AXLE;
    uint32_t wheel = whole[COUNT] - 1, up = whole[UP] % 3; /* whatever the whole numbers hold */
    unit(doubts, wheel, "length of the direction", direction, "The ray would be that many times as long as rest_length + radius; a zero direction has no ray. Normalise it.");
    if (is_unit(direction) && direction[up] > -HALF)
        doubt(doubts, of_wheel(found("part of the direction along up", direction[up], "a suspension that points down has -1", 0, "The ray starts at the connection and goes where the direction points: turn it down."), wheel));
    unit(doubts, wheel, "length of the axle", axle, "Only where it points counts, but with a zero axle the tyre neither rolls nor holds. Normalise it.");
    if (is_unit(axle) && whole[UP] != whole[FORWARD] && rolls_forward(whole, axle) < HALF)
        doubt(doubts, of_wheel(found("rolling direction along the forward axis", rolls_forward(whole, axle), "it is 1 where an engine above 0 drives forward", 0, "The wheel rolls toward up x axle: turn the axle round, or set up with another forward axis."), wheel));
}

static void tuning(struct doubts *doubts, uint32_t wheel, const float *settings)
{
    static const char damper[] = "It is multiplied by the chassis' mass: divide a damper's newton seconds per metre by the mass.";
    static const struct {
        int place;
        float least, most;
        const char *field, *bound, *why;
    } tested[] = {
        {RADIUS, 0, 5, "radius", "a wheel has some tenths of a metre", "Hand in metres."},
        {STIFFNESS, 1e-6f, 1000, "stiffness", "a car has some tens", "It is multiplied by the chassis' mass: divide a spring's newtons per metre by the mass. With 0 nothing carries the car."},
        {COMPRESSION, 0, 100, "compression", "a car has less than ten", damper},
        {DAMPING, 0, 100, "damping", "a car has less than ten", damper},
        {TRAVEL, 0, 1, "travel", "a car has some tenths of a metre", "The spring would be pressed past its mount. The Rust source's 5 is not for a car."},
        {SLIP, 1e-6f, 3, "slip", "a tyre has about 1", "It is the coefficient of friction: with 0 the tyre has no grip, and the Rust source's 10.5 is not for a car."},
        {MOST, 1, INFINITY, "most_force", "a car's spring pushes by some thousands", "The spring's push is cut to it, in newtons: with 0 nothing carries the car."},
    };
    for (size_t i = 0; i < sizeof tested / sizeof tested[0]; i++) {
        float value = settings[tested[i].place];
        if (value < tested[i].least || value > tested[i].most)
            doubt(doubts, of_wheel(found(tested[i].field, value, tested[i].bound, 0, tested[i].why), wheel));
    }
}

size_t vehicle_doubts_add_wheel(const uint32_t whole[VEHICLE_WHOLE_LEN], const float settings[VEHICLE_SETTINGS_LEN], vehicle_finding *list, size_t most)
{
    struct doubts doubts = {list, most, 0};
    directions(&doubts, whole, settings);
    tuning(&doubts, whole[COUNT] - 1, settings);
    return doubts.count;
}

/* ---- Controls ---- */

/* The part of the up axis that points up once it is turned by the rotation of these x, y, z parts: 1 is upright. */
static float upward(uint32_t up, const float *parts)
{
    float next = parts[(up + 1) % 3], last = parts[(up + 2) % 3];
    return 1 - 2 * (next * next + last * last);
}

/* A rotation that is not upright, and would be if its four numbers were w, x, y, z. */
static void w_first(struct doubts *doubts, int32_t wheel, uint32_t up, const char *field, const float *q)
{
    vehicle_finding finding;
    if (upward(up, q) >= HALF || upward(up, q + 1) < UPRIGHT)
        return;
    finding = found(field, upward(up, q), "upright it is 1, as it would be if the first number were w", 0, "A quaternion is x, y, z, w in this order. A car on its roof looks the same.");
    finding.wheel = wheel;
    doubt(doubts, finding);
}

static void effort(struct doubts *doubts, uint32_t wheel, const float *controls)
{
    if (fabsf(controls[ENGINE]) > MOST_ENGINE)
        doubt(doubts, of_wheel(found("engine", controls[ENGINE], "one wheel of a car pushes by some thousands", 0, "It is a force in newtons on this wheel, not a power and not a torque."), wheel));
    if (controls[BRAKE] > MOST_BRAKE)
        doubt(doubts, of_wheel(found("brake", controls[BRAKE], "one wheel of a car takes some tens in a step", 0, "It is an impulse for each step, in newton seconds: multiply a brake's force by the time step."), wheel));
    if (controls[ENGINE] != 0 && controls[BRAKE] > 0)
        doubt(doubts, of_wheel(found("brake", controls[BRAKE], "a wheel whose engine is not 0 ignores its brake", 0, "Set the engine of this wheel to exactly 0 where it is to brake."), wheel));
}

size_t vehicle_doubts_set_controls_by_angle(const uint32_t whole[VEHICLE_WHOLE_LEN], uint32_t wheel, const float controls[VEHICLE_CONTROLS_BY_ANGLE_LEN], vehicle_finding *list, size_t most)
{
    struct doubts doubts = {list, most, 0};
    (void)whole; /* both forms of controls are asked alike */
    effort(&doubts, wheel, controls);
    return doubts.count;
}

size_t vehicle_doubts_set_controls(const uint32_t whole[VEHICLE_WHOLE_LEN], uint32_t wheel, const float controls[VEHICLE_CONTROLS_LEN], vehicle_finding *list, size_t most)
{
    struct doubts doubts = {list, most, 0};
    effort(&doubts, wheel, controls);
    w_first(&doubts, (int32_t)wheel, whole[UP], "up part of up turned by the steering", controls + STEERING);
    return doubts.count;
}

/* ---- An aim ---- */

static void masses(struct doubts *doubts, const float *chassis)
{
    static const char *const effective[] = {VECTOR_NAMES("effective_inverse_masses")};
    static const char *const inertia[] = {INERTIA_NAMES("inverse_inertia")};
    if (chassis[INVMASS] > MOST_INVERSE_MASS)
        doubt(doubts, found("inverse_mass", chassis[INVMASS], "above 1 the chassis weighs less than a kilogram", 0, "A chassis takes 1 divided by the mass, a rigid body the mass itself, in kg."));
    for (int axis = 0; axis < 3; axis++) {
        float part = chassis[EFFECTIVE + axis];
        if (part != 0 && part != chassis[INVMASS])
            doubt(doubts, found(effective[axis], part, "it is the inverse mass, or 0 where the chassis is locked", 0, "Pushes along this axis would move another mass than the springs and tyres are worked out for."));
    }
    for (int place = 0; place < 6; place++)
        if (fabsf(chassis[INERTIA + place]) > MOST_INVERSE_INERTIA)
            doubt(doubts, found(inertia[place], chassis[INERTIA + place], "a car has less than a hundredth", 0, "A chassis takes the inverse of the inertia, in world space, a rigid body the local inertia itself, in kg m^2."));
}

size_t vehicle_doubts_aim(const uint32_t whole[VEHICLE_WHOLE_LEN], const float chassis[VEHICLE_CHASSIS_LEN], vehicle_finding *list, size_t most)
{
    struct doubts doubts = {list, most, 0};
    float lever[3];
    for (int axis = 0; axis < 3; axis++)
        lever[axis] = chassis[MASS_CENTRE + axis] - chassis[TRANSLATION + axis];
    if (length(lever) > MOST_LEVER)
        doubt(&doubts, found("distance from translation to centre_of_mass", length(lever), "a car has less than a metre", 0, "A chassis takes the centre of mass in world space, a rigid body the local one, from its position."));
    masses(&doubts, chassis);
    w_first(&doubts, VEHICLE_NONE, whole[UP], "up part of the chassis' up", chassis + ORIENTATION);
    return doubts.count;
}

/* ---- A drive ---- */

/* A normal that points along the ray, away from the wheel. */
static void normals(struct doubts *doubts, const float *table, const uint32_t *kinds, size_t wheels, const float *rays)
{
    for (uint32_t wheel = 0; wheel < wheels; wheel++) {
        const float *ray = rays + VEHICLE_RAY_LEN * (size_t)wheel;
        float along = dot(ray + HIT_NORMAL, row_of(table, wheel) + WORLD_DIRECTION);
        if (kinds[wheel] != VEHICLE_NOTHING && ray[TIME] > 0 && along > 0)
            doubt(doubts, of_wheel(found("part of the normal along the ray", along, "it is below 0, from the ground toward the wheel", 0, "A floor's normal is up: turn it round. As it is, the tyre is pushed into the ground."), wheel));
    }
}

size_t vehicle_doubts_drive(const float table[VEHICLE_TABLE_LEN], float dt, const float *bodies, size_t bodies_len, const uint32_t *kinds, size_t kinds_len, const float *rays, size_t rays_len, vehicle_finding *list, size_t most)
{
    struct doubts doubts = {list, most, 0};
    if (dt > MOST_STEP)
        doubt(&doubts, found("dt", dt, "springs and tyres are steady up to a tenth of a second", 0, "Divide the frame into shorter steps, each with its own aim and rays."));
    for (size_t body = 0; body < bodies_len / VEHICLE_BODY_LEN; body++) {
        float inverse_mass = bodies[VEHICLE_BODY_LEN * body + BODY_INVMASS];
        if (inverse_mass > MOST_INVERSE_MASS)
            doubt(&doubts, of_body(found("inverse_mass", inverse_mass, "above 1 the body weighs less than a kilogram", 0, "A ground body takes 1 divided by the mass, a rigid body the mass itself, in kg."), body));
    }
    if (kinds_len <= VEHICLE_MOST_WHEELS && rays_len == VEHICLE_RAY_LEN * kinds_len)
        normals(&doubts, table, kinds, kinds_len, rays);
    return doubts.count;
}
