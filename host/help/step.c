/* A step by docs/RULES.md, on a copy of the table. Each operation is rounded once to single precision: compile with -ffp-contract=off. */
#include "step.h"

#include <math.h>
#include <string.h>

#include "fields.h"

/* ---- Arithmetic ---- */

typedef struct {
    float x, y, z;
} vec;

static vec at(const float *numbers)
{
    vec v = {numbers[0], numbers[1], numbers[2]};
    return v;
}

static void put(float *numbers, vec v)
{
    numbers[0] = v.x;
    numbers[1] = v.y;
    numbers[2] = v.z;
}

static vec add(vec a, vec b)
{
    vec v = {a.x + b.x, a.y + b.y, a.z + b.z};
    return v;
}

static vec neg(vec a)
{
    vec v = {-a.x, -a.y, -a.z};
    return v;
}

static vec sub(vec a, vec b)
{
    return add(a, neg(b));
}

static vec scale(vec a, float s)
{
    vec v = {a.x * s, a.y * s, a.z * s};
    return v;
}

static vec parts(vec a, vec b)
{
    vec v = {a.x * b.x, a.y * b.y, a.z * b.z};
    return v;
}

static float dot(vec a, vec b)
{
    return (a.x * b.x + a.y * b.y) + a.z * b.z;
}

static vec cross(vec a, vec b)
{
    vec v = {a.y * b.z - a.z * b.y, a.z * b.x - a.x * b.z, a.x * b.y - a.y * b.x};
    return v;
}

/* Whether a vector can be made unit length; if not, it is normalised to zero. */
static int has_unit(vec v)
{
    float r = 1 / vehicle_root(dot(v, v));
    return r > 0 && r < INFINITY;
}

static vec normalise(vec v)
{
    static const vec zero = {0, 0, 0};
    return has_unit(v) ? scale(v, 1 / vehicle_root(dot(v, v))) : zero;
}

static vec rotate(const float q[4], vec v)
{
    vec b = at(q);
    float w = q[3];
    return add(add(scale(v, w * w - dot(b, b)), scale(b, dot(v, b) * 2)), scale(cross(b, v), w * 2));
}

static float inverse(float a)
{
    return a == 0 ? 0 : 1 / a;
}

static float clamp(float x, float low, float high)
{
    float raised = x < low ? low : x;
    return high < raised ? high : raised;
}

/* ---- Bodies: a chassis' numbers from its centre of mass on are laid out like a ground body's, but for the effective inverse masses. ---- */

struct body {
    vec centre, linear, angular;
    float inverse_mass;
    const float *inertia;
};

static struct body chassis_at(const float *chassis)
{
    struct body b = {at(chassis + MASS_CENTRE), at(chassis + LINVEL), at(chassis + ANGVEL), chassis[INVMASS], chassis + INERTIA};
    return b;
}

static struct body ground_at(const float *numbers)
{
    struct body b = {at(numbers + BODY_CENTRE), at(numbers + BODY_LINVEL), at(numbers + BODY_ANGVEL), numbers[BODY_INVMASS], numbers + BODY_INERTIA};
    return b;
}

static vec turned(const float i[6], vec v)
{
    const float rows[3][3] = {{i[0], i[1], i[2]}, {i[1], i[3], i[4]}, {i[2], i[4], i[5]}};
    vec t = {dot(at(rows[0]), v), dot(at(rows[1]), v), dot(at(rows[2]), v)};
    return t;
}

static vec velocity_at(const struct body *b, vec p)
{
    return add(b->linear, cross(b->angular, sub(p, b->centre)));
}

static void push(float *chassis, vec impulse, vec p)
{
    struct body b = chassis_at(chassis);
    put(chassis + LINVEL, add(b.linear, parts(impulse, at(chassis + EFFECTIVE))));
    put(chassis + ANGVEL, add(b.angular, turned(b.inertia, cross(sub(p, b.centre), impulse))));
}

/* ---- Rule 1 ---- */

/* The rotation that a wheel's steering makes: its own, or its angle's about minus the world direction. */
static void steering(const float *row, float q[4])
{
    float half = row[ANGLE_AT] * 0.5f;
    if (row[KIND_AT] == 0) {
        memcpy(q, row + ROTATION_AT, 4 * sizeof *q);
        return;
    }
    put(q, scale(normalise(neg(at(row + WORLD_DIRECTION))), vehicle_sine(half)));
    q[3] = vehicle_cosine(half);
}

float turn_squared(const float *row)
{
    float q[4];
    if (!has_unit(at(row + WORLD_DIRECTION)))
        return 0;
    steering(row, q);
    return ((q[0] * q[0] + q[1] * q[1]) + q[2] * q[2]) + q[3] * q[3];
}

void would_aim(float table[VEHICLE_TABLE_LEN], uint32_t count, const float chassis[VEHICLE_CHASSIS_LEN])
{
    const float *q = chassis + ORIENTATION;
    memcpy(table, chassis, VEHICLE_CHASSIS_LEN * sizeof *table);
    for (uint32_t wheel = 0; wheel < count; wheel++) {
        float *row = row_in(table, wheel), steered[4];
        const float *settings = row + SETTINGS_AT;
        put(row + HARD, add(rotate(q, at(settings + CONNECTION)), at(chassis + TRANSLATION)));
        put(row + WORLD_DIRECTION, rotate(q, at(settings + DIRECTION)));
        put(row + CENTRE, add(at(row + HARD), scale(at(row + WORLD_DIRECTION), row[LENGTH])));
        steering(row, steered);
        put(row + WORLD_AXLE, rotate(steered, rotate(q, at(settings + AXLE))));
    }
}

/* ---- Rules 3 to 6 ---- */

static vec hit_normal(const float *row, uint32_t kind, const float *ray)
{
    vec normal = at(ray + HIT_NORMAL);
    if (ray[TIME] == 0 && kind == VEHICLE_HIT_UP)
        normal = neg(at(ray + UPWARD_NORMAL));
    if (ray[TIME] == 0 && normal.x == 0 && normal.y == 0 && normal.z == 0)
        normal = neg(at(row + WORLD_DIRECTION));
    return normal;
}

static void hit(float *row, const struct body *chassis, vec normal, float time)
{
    const float *s = row + SETTINGS_AT;
    float reach = s[REST] + s[RADIUS], facing = dot(normal, at(row + WORLD_DIRECTION));
    vec point = add(at(row + HARD), scale(scale(at(row + WORLD_DIRECTION), reach), time));
    put(row + NORMAL, normal);
    put(row + POINT, point);
    row[LENGTH] = clamp(time * reach - s[RADIUS], s[REST] - s[TRAVEL], s[REST] + s[TRAVEL]);
    row[INVERSE] = facing >= -0.1f ? 1 / 0.1f : -1 / facing;
    row[VELOCITY] = facing >= -0.1f ? 0 : dot(normal, velocity_at(chassis, point)) * row[INVERSE];
}

static void miss(float *row)
{
    const float *s = row + SETTINGS_AT;
    put(row + NORMAL, neg(at(row + WORLD_DIRECTION)));
    put(row + POINT, add(at(row + HARD), scale(at(row + WORLD_DIRECTION), s[REST] + s[RADIUS])));
    row[LENGTH] = s[REST];
    row[VELOCITY] = 0;
    row[INVERSE] = 1;
}

static float spring(const float *row, float inverse_mass)
{
    const float *s = row + SETTINGS_AT;
    float damping = row[VELOCITY] < 0 ? s[COMPRESSION] : s[DAMPING];
    float force = (s[STIFFNESS] * (s[REST] - row[LENGTH]) * row[INVERSE] - damping * row[VELOCITY]) * inverse(inverse_mass);
    return force > 0 ? force : 0;
}

static void springs(float *table, uint32_t count, const struct lists *lists)
{
    struct body kept = chassis_at(table);
    for (uint32_t wheel = 0; wheel < count; wheel++) {
        float *row = row_in(table, wheel);
        const float *ray = lists->rays + VEHICLE_RAY_LEN * (size_t)wheel;
        row[FORCE] = 0;
        if (lists->kinds[wheel] == VEHICLE_NOTHING) {
            miss(row);
        } else {
            hit(row, &kept, hit_normal(row, lists->kinds[wheel], ray), ray[TIME]);
            row[FORCE] = spring(row, kept.inverse_mass);
        }
    }
    for (uint32_t wheel = 0; wheel < count; wheel++) {
        const float *row = row_of(table, wheel);
        float most = row[SETTINGS_AT + MOST], cut = most < row[FORCE] ? most : row[FORCE];
        push(table, scale(scale(at(row + NORMAL), cut), lists->dt), at(row + POINT));
    }
}

/* ---- Rules 7 and 8 ---- */

static float swing(const struct body *b, vec p, vec axis)
{
    vec t = turned(b->inertia, cross(sub(p, b->centre), axis));
    return dot(t, t);
}

static float denominator(const struct body *b, vec p, vec n)
{
    vec d = sub(p, b->centre);
    return b->inverse_mass + dot(n, cross(turned(b->inertia, cross(d, n)), d));
}

static float side_demand(const float *row, const struct body *chassis, const struct body *ground, vec axis)
{
    vec p = at(row + POINT), u = velocity_at(chassis, p);
    float sum = chassis->inverse_mass;
    if (ground) {
        u = sub(u, velocity_at(ground, p));
        sum = (sum + ground->inverse_mass + swing(chassis, p, axis)) + swing(ground, p, axis);
    } else {
        sum += swing(chassis, p, axis);
    }
    return -0.2f * dot(axis, u) * inverse(sum) * row[SETTINGS_AT + SIDEWAYS];
}

static float rolling_demand(const float *row, const struct body *chassis, const struct body *ground, vec forward, float dt, uint32_t grounded)
{
    vec p = at(row + POINT), u = velocity_at(chassis, p);
    float sum = denominator(chassis, p, forward), engine = row[CONTROLS_AT + ENGINE], brake = row[CONTROLS_AT + BRAKE];
    if (engine != 0)
        return engine * dt;
    if (ground) {
        u = sub(u, velocity_at(ground, p));
        sum += denominator(ground, p, forward);
    }
    return clamp(-dot(forward, u) * (1 / sum) / (float)grounded, -brake, brake);
}

static vec axis_of(const float *row)
{
    vec normal = at(row + NORMAL), axle = at(row + WORLD_AXLE);
    return normalise(sub(axle, scale(normal, dot(axle, normal))));
}

static vec forward_of(const float *row)
{
    return normalise(cross(at(row + NORMAL), axis_of(row)));
}

static void demand(float *row, const struct lists *lists, uint32_t wheel, const struct body *chassis, uint32_t grounded, float limit)
{
    uint32_t named = lists->named[wheel];
    struct body ground = named ? ground_at(lists->bodies + VEHICLE_BODY_LEN * (size_t)(named - 1)) : *chassis;
    int counts = named && lists->dynamic[named - 1];
    float side = side_demand(row, chassis, counts ? &ground : NULL, axis_of(row));
    float forward = rolling_demand(row, chassis, named ? &ground : NULL, forward_of(row), lists->dt, grounded);
    float load = forward * 0.5f * (forward * 0.5f) + side * side;
    row[FORWARD_IMPULSE] = forward;
    row[SIDE_IMPULSE] = side;
    row[SKID] = load > limit * limit ? limit * inverse(vehicle_root(load)) : 1;
}

void would_demand(float table[VEHICLE_TABLE_LEN], uint32_t count, const struct lists *lists, float limits[VEHICLE_MOST_WHEELS])
{
    struct body chassis;
    uint32_t grounded = 0;
    springs(table, count, lists);
    chassis = chassis_at(table);
    for (uint32_t wheel = 0; wheel < count; wheel++)
        grounded += lists->kinds[wheel] != VEHICLE_NOTHING;
    for (uint32_t wheel = 0; wheel < count; wheel++) {
        float *row = row_in(table, wheel);
        limits[wheel] = row[FORCE] * lists->dt * row[SETTINGS_AT + SLIP];
        row[FORWARD_IMPULSE] = row[SIDE_IMPULSE] = 0;
        row[SKID] = 1;
        if (lists->kinds[wheel] != VEHICLE_NOTHING)
            demand(row, lists, wheel, &chassis, grounded, limits[wheel]);
    }
}

/* ---- Rules 8 to 10 ---- */

static void rescale(float *row)
{
    if (row[SKID] < 1) {
        row[FORWARD_IMPULSE] *= row[SKID];
        row[SIDE_IMPULSE] *= row[SKID];
    }
}

static void grip(float *chassis, const float *row, vec up)
{
    vec point = at(row + POINT), centre = at(chassis + MASS_CENTRE);
    float lift = dot(up, sub(point, centre)) * (1 - row[SETTINGS_AT + ROLL]);
    push(chassis, scale(forward_of(row), row[FORWARD_IMPULSE]), point);
    push(chassis, scale(axis_of(row), row[SIDE_IMPULSE]), sub(point, scale(up, lift)));
}

static void spin(float *row, const struct body *chassis, float dt, int contact)
{
    vec rolling = normalise(cross(at(row + NORMAL), at(row + WORLD_AXLE)));
    if (contact)
        row[SPIN] = dot(rolling, velocity_at(chassis, at(row + HARD))) * dt / row[SETTINGS_AT + RADIUS];
    row[ROTATION] += row[SPIN];
    row[SPIN] *= 0.99f;
}

void would_drive(float table[VEHICLE_TABLE_LEN], uint32_t count, uint32_t up, const struct lists *lists)
{
    float limits[VEHICLE_MOST_WHEELS];
    const float axis[3] = {up == 0, up == 1, up == 2};
    vec upward = rotate(table + ORIENTATION, at(axis));
    struct body chassis;
    would_demand(table, count, lists, limits);
    for (uint32_t wheel = 0; wheel < count; wheel++)
        rescale(row_in(table, wheel));
    for (uint32_t wheel = 0; wheel < count; wheel++)
        grip(table, row_of(table, wheel), upward);
    chassis = chassis_at(table);
    for (uint32_t wheel = 0; wheel < count; wheel++)
        spin(row_in(table, wheel), &chassis, lists->dt, lists->kinds[wheel] != VEHICLE_NOTHING);
}
