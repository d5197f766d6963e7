/* Which number made a call refuse, and what to do about it: the tests of docs/RULES.md, refusal by refusal. */
#include <math.h>
#include <string.h>

#include "fields.h"
#include "finding.h"
#include "step.h"

/* What every call is lent. */
struct lent {
    const float *table;
    size_t table_len;
    const uint32_t *whole;
    size_t whole_len;
};

/* Numbers that a call is handed, or that are stored, with their names. */
struct numbers {
    const float *first;
    size_t len;
    const char *const *names;
};

static const char *const settings_names[] = {SETTINGS_NAMES("")};
static const char *const controls_names[] = {CONTROLS_NAMES("")};
static const char *const by_angle_names[] = {BY_ANGLE_NAMES};
static const char *const chassis_names[] = {CHASSIS_NAMES("")};
static const char *const kept_names[] = {CHASSIS_NAMES("kept ")};
static const char *const body_names[] = {BODY_NAMES};
static const char *const ray_names[] = {RAY_NAMES};
static const char *const row_names[] = {ROW_NAMES};
static const char *const dt_name[] = {"dt"};

/* ---- 1: no vehicle ---- */

#define LEND "Lend an array of the length that vehicle.h names. A host that was compiled against another vehicle.h has to be compiled again."
#define OVERWRITTEN "These numbers are no vehicle: set it up before any other call. If it was set up, something else has written over them."
#define AXES "an axis is 0 for x, 1 for y or 2 for z"

static vehicle_finding length_of(const char *field, size_t len, unsigned long long expected)
{
    return len == expected ? nothing_found(0) : found(field, (double)len, "%llu numbers are asked for", expected, LEND);
}

static vehicle_finding shape_of(const struct lent *lent)
{
    vehicle_finding length = length_of("length of the table", lent->table_len, VEHICLE_TABLE_LEN);
    if (!length.field)
        length = length_of("length of the whole numbers", lent->whole_len, VEHICLE_WHOLE_LEN);
    if (length.field)
        return length;
    if (lent->whole[COUNT] > VEHICLE_MOST_WHEELS)
        return found("stored wheel count", lent->whole[COUNT], "a vehicle has at most %llu wheels", VEHICLE_MOST_WHEELS, OVERWRITTEN);
    if (lent->whole[MARK] > DRIVEN)
        return found("stored mark", lent->whole[MARK], "a mark is 0, 1 or 2", 0, OVERWRITTEN);
    if (lent->whole[UP] > 2)
        return found("stored up axis", lent->whole[UP], AXES, 0, OVERWRITTEN);
    if (lent->whole[FORWARD] > 2)
        return found("stored forward axis", lent->whole[FORWARD], AXES, 0, OVERWRITTEN);
    return nothing_found(0);
}

/* One list beside the vehicle has a length that the call asks for. */
static vehicle_finding no_vehicle(const struct lent *lent, const char *field, size_t len, unsigned long long expected)
{
    vehicle_finding shape = shape_of(lent);
    return shape.field ? shape : length_of(field, len, expected);
}

static int is_vehicle(const struct lent *lent)
{
    return !shape_of(lent).field;
}

/* ---- 2: a bad number ---- */

static const char *why_bad(float value)
{
    if (isnan(value))
        return "It is not a number: look for 0/0, a zero vector that was normalised, an inertia of 0, or a variable that was never set.";
    if (isinf(value))
        return "Look for a division by zero where it is worked out, as by a mass or a time step of 0.";
    return "It is far beyond a car's: look for a wrong unit, or a value that grows from frame to frame.";
}

/* The first number that is not at most this much in magnitude, or the length of the list. */
static size_t first_beyond(struct numbers list, float most)
{
    size_t place = 0;
    while (place < list.len && fabsf(list.first[place]) <= most)
        place++;
    return place;
}

static vehicle_finding bad_handed(struct numbers list)
{
    size_t place = first_beyond(list, HANDED);
    if (place == list.len)
        return nothing_found(0);
    return found(list.names[place], list.first[place], "numbers handed in are finite and at most %llu in size", (unsigned long long)HANDED, why_bad(list.first[place]));
}

/* A number of the table that is beyond 2^40: the kept chassis, then the rows that are used. */
static vehicle_finding beyond_stored(const float *table, uint32_t count, const char *advice)
{
    static const char bound[] = "stored numbers are finite and at most %llu in size";
    struct numbers kept = {table, VEHICLE_CHASSIS_LEN, kept_names};
    size_t place = first_beyond(kept, STORED);
    if (place < kept.len)
        return found(kept_names[place], table[place], bound, (unsigned long long)STORED, advice);
    for (uint32_t wheel = 0; wheel < count; wheel++) {
        struct numbers row = {row_of(table, wheel), ROW, row_names};
        place = first_beyond(row, STORED);
        if (place < row.len)
            return of_wheel(found(row_names[place], row.first[place], bound, (unsigned long long)STORED, advice), wheel);
    }
    return nothing_found(0);
}

static vehicle_finding bad_stored(const struct lent *lent)
{
    return beyond_stored(lent->table, lent->whole[COUNT], "The vehicle ran away in an earlier step, or something else wrote to its table: set it up again, or restore a saved one.");
}

static vehicle_finding bad_number(const struct lent *lent, struct numbers handed, int32_t wheel)
{
    vehicle_finding bad = bad_handed(handed);
    if (!bad.field)
        return bad_stored(lent);
    bad.wheel = wheel;
    return bad;
}

/* ---- 3, 4 and 5 ---- */

static vehicle_finding full(const struct lent *lent)
{
    if (lent->whole[COUNT] < VEHICLE_MOST_WHEELS)
        return nothing_found(0);
    return found("wheel count", lent->whole[COUNT], "a vehicle has at most %llu wheels", VEHICLE_MOST_WHEELS, "Leave this wheel out.");
}

static vehicle_finding no_such_wheel(const struct lent *lent, uint32_t wheel)
{
    if (wheel < lent->whole[COUNT])
        return nothing_found(0);
    return found("wheel number", wheel, "this vehicle has %llu wheels, numbered from 0", lent->whole[COUNT], "Use the number that adding the wheel gave: they count up in the order of adding.");
}

static vehicle_finding wrong_moment_to_drive(const struct lent *lent)
{
    if (lent->whole[MARK] == AIMED)
        return nothing_found(0);
    if (lent->whole[MARK] == DRIVEN)
        return found("mark", DRIVEN, "that is driven: this aim has had its drive", 0, "Aim again and cast the new rays: each drive takes an aim of its own.");
    return found("mark", NEW, "that is new: the vehicle is not aimed", 0, "Aim, cast the rays, then drive. If it was aimed, controls were set or a wheel was added since then: aim again.");
}

static vehicle_finding wrong_moment_to_read(const struct lent *lent)
{
    if (lent->whole[MARK] == DRIVEN)
        return nothing_found(0);
    if (lent->whole[MARK] == AIMED)
        return found("mark", AIMED, "that is aimed: the vehicle is not driven yet", 0, "Drive first, then read: the aim has replaced the wheels of the frame before.");
    return found("mark", NEW, "that is new: the vehicle has not been driven", 0, "Aim, cast the rays, drive, and then read. A wheel that was added, and controls that were set after an aim, call for that too.");
}

/* ---- 6: the lists of a drive ---- */

#define ONE_FOR_EACH "Hand in one answer for each wheel, in the order in which the wheels were added; a ray that met nothing has one too."

static vehicle_finding bad_sizes(const struct lent *lent, const struct lists *lists)
{
    unsigned long long count = lent->whole[COUNT], bodies = lists->dynamic_len;
    if (lists->kinds_len != count)
        return found("number of ray answers", (double)lists->kinds_len, "this vehicle has %llu wheels", count, ONE_FOR_EACH);
    if (lists->named_len != count)
        return found("number of named bodies", (double)lists->named_len, "this vehicle has %llu wheels", count, ONE_FOR_EACH);
    if (lists->rays_len != VEHICLE_RAY_LEN * count)
        return found("length of the rays", (double)lists->rays_len, "for this vehicle's wheels %llu are asked for", VEHICLE_RAY_LEN * count, ONE_FOR_EACH);
    if (bodies > VEHICLE_MOST_BODIES)
        return found("number of ground bodies", (double)bodies, "a drive takes at most %llu", VEHICLE_MOST_BODIES, "Hand in only the bodies that a ray of this frame has met.");
    if (lists->bodies_len != VEHICLE_BODY_LEN * bodies)
        return found("length of the bodies", (double)lists->bodies_len, "for this many flags %llu are asked for", VEHICLE_BODY_LEN * bodies, "Hand in 16 numbers and one flag for each ground body.");
    return nothing_found(0);
}

static vehicle_finding bad_answer(const struct lists *lists, uint32_t wheel)
{
    const float *ray = lists->rays + VEHICLE_RAY_LEN * (size_t)wheel;
    if (lists->kinds[wheel] > VEHICLE_HIT_UP)
        return found("kind of answer", lists->kinds[wheel], "a kind is 0, 1 or 2", 0, "Hand in VEHICLE_NOTHING, VEHICLE_HIT or VEHICLE_HIT_UP.");
    if (lists->kinds[wheel] == VEHICLE_NOTHING)
        return nothing_found(0);
    if (!(ray[TIME] >= 0 && ray[TIME] <= 1))
        return found("hit time", ray[TIME], "times are fractions of the ray from 0 to 1", 0, ray[TIME] < 0 ? "The ray starts below the ground: hand in 0 with the ground's normal." : "Divide the distance to the hit by the length of the ray; a hit beyond its end is no hit.");
    if (lists->named[wheel] > lists->dynamic_len)
        return found("ground body", lists->named[wheel] - 1.0, "this drive has %llu, numbered from 0", lists->dynamic_len, "Name the body by its place in the list of this very drive, or none.");
    return nothing_found(0);
}

static vehicle_finding bad_lists(const struct lent *lent, const struct lists *lists)
{
    vehicle_finding bad = bad_sizes(lent, lists);
    for (size_t body = 0; !bad.field && body < lists->dynamic_len; body++)
        if (lists->dynamic[body] > 1)
            bad = of_body(found("dynamic", lists->dynamic[body], "a flag is 0 or 1", 0, "Hand in 1 for a dynamic body, else 0."), body);
    for (uint32_t wheel = 0; !bad.field && wheel < lent->whole[COUNT]; wheel++)
        bad = of_wheel(bad_answer(lists, wheel), wheel);
    return bad;
}

/* ---- 2 and 12 of a drive ---- */

static vehicle_finding bad_normals(const struct lists *lists, uint32_t wheel)
{
    struct numbers normals = {lists->rays + VEHICLE_RAY_LEN * (size_t)wheel + HIT_NORMAL, 0, ray_names + HIT_NORMAL};
    if (lists->kinds[wheel] != VEHICLE_NOTHING)
        normals.len = lists->kinds[wheel] == VEHICLE_HIT_UP ? 6 : 3;
    return bad_handed(normals);
}

static vehicle_finding bad_number_to_drive(const struct lent *lent, const struct lists *lists)
{
    struct numbers dt = {&lists->dt, 1, dt_name};
    vehicle_finding bad = bad_handed(dt);
    for (size_t body = 0; !bad.field && body < lists->dynamic_len; body++) {
        struct numbers numbers = {lists->bodies + VEHICLE_BODY_LEN * body, VEHICLE_BODY_LEN, body_names};
        bad = of_body(bad_handed(numbers), body);
    }
    for (uint32_t wheel = 0; !bad.field && wheel < lent->whole[COUNT]; wheel++)
        bad = of_wheel(bad_normals(lists, wheel), wheel);
    return bad.field ? bad : bad_stored(lent);
}

static int is_in_band(float squared)
{
    return squared >= BAND_LOW && squared <= BAND_HIGH;
}

static float squared(const float *v)
{
    return (v[0] * v[0] + v[1] * v[1]) + v[2] * v[2];
}

#define UNIT "for unit length it is from 0.9990234 to 1.0009766"

static vehicle_finding normal_of_length(const struct lists *lists, uint32_t wheel)
{
    const float *ray = lists->rays + VEHICLE_RAY_LEN * (size_t)wheel, *normal = ray + HIT_NORMAL, *upward = ray + UPWARD_NORMAL;
    int is_zero = normal[0] == 0 && normal[1] == 0 && normal[2] == 0;
    if (lists->kinds[wheel] == VEHICLE_NOTHING)
        return nothing_found(0);
    if (!is_in_band(squared(normal)) && !(is_zero && ray[TIME] == 0))
        return found("sum of squares of the normal", squared(normal), UNIT, 0, "Normalise the normals that the casts give, again where the scene is scaled. Only a hit at time 0 may have a normal of zeros.");
    if (lists->kinds[wheel] == VEHICLE_HIT_UP && !is_in_band(squared(upward)))
        return found("sum of squares of the upward normal", squared(upward), UNIT, 0, "Normalise it. Where an upward cast met nothing, hand in a plain hit without an upward normal.");
    return nothing_found(0);
}

static vehicle_finding bad_normal(const struct lent *lent, const struct lists *lists)
{
    vehicle_finding bad = nothing_found(0);
    for (uint32_t wheel = 0; !bad.field && wheel < lent->whole[COUNT]; wheel++)
        bad = of_wheel(normal_of_length(lists, wheel), wheel);
    return bad;
}

/* ---- 10: a setting out of its range ---- */

#define STORED_SETTING "Something else wrote to the table: set the vehicle up again, or restore a saved one."

/* The advice is that of a setting that was handed in, or, for a stored one, the other. */
static vehicle_finding range_of_settings(const float *settings, const char *const *names, const char *instead)
{
    if (!(settings[RADIUS] > 0))
        return found(names[RADIUS], settings[RADIUS], "a radius is above 0", 0, instead ? instead : "Hand in the wheel's radius in metres.");
    for (int place = REST; place <= ROLL; place++)
        if (!(settings[place] >= 0))
            return found(names[place], settings[place], "it is at least 0", 0, instead ? instead : "Hand in a number that is not negative.");
    if (!(settings[ROLL] <= 1))
        return found(names[ROLL], settings[ROLL], "a roll influence is from 0 to 1", 0, instead ? instead : "Hand in a fraction: 0.1 is the Rust source's.");
    return nothing_found(0);
}

static vehicle_finding range_of_rotation(const char *field, const float *q, const char *advice)
{
    float sum = squared(q) + q[3] * q[3];
    return is_in_band(sum) ? nothing_found(0) : found(field, sum, UNIT, 0, advice);
}

static vehicle_finding range_of_brake(const char *field, float brake, const char *advice)
{
    return brake >= 0 ? nothing_found(0) : found(field, brake, "a brake is at least 0", 0, advice);
}

static vehicle_finding range_of_angle(const char *field, float angle, const char *advice)
{
    return fabsf(angle) <= MOST_ANGLE ? nothing_found(0) : found(field, angle, "an angle is from -2 to 2 radians", 0, advice);
}

#define BRAKES "Hand in the size of the brake's impulse: it works against the motion either way."

static vehicle_finding range_of_controls(const float *controls)
{
    vehicle_finding brake = range_of_brake("brake", controls[BRAKE], BRAKES);
    return brake.field ? brake : range_of_rotation("sum of squares of the steering", controls + STEERING, "Normalise the rotation, x, y, z, w; or steer by an angle.");
}

static vehicle_finding range_of_controls_by_angle(const float *controls)
{
    vehicle_finding brake = range_of_brake("brake", controls[BRAKE], BRAKES);
    return brake.field ? brake : range_of_angle("steering angle", controls[STEERING], "Hand in radians, not degrees: 30 degrees are 0.5236.");
}

static vehicle_finding range_of_chassis(const float *chassis, const char *const *names, const char *instead)
{
    if (!(chassis[INVMASS] >= LEAST_INVMASS && chassis[INVMASS] <= HANDED))
        return found(names[INVMASS], chassis[INVMASS], "a chassis' inverse mass is from 2^-20 to 2^20", 0, instead ? instead : "Hand in 1 divided by the mass in kg: a chassis is dynamic, and neither weightless nor infinitely heavy.");
    return range_of_rotation("sum of squares of the chassis' rotation", chassis + ORIENTATION, instead ? instead : "Normalise the quaternion, and hand in x, y, z, w in this order.");
}

static vehicle_finding range_of_row(const float *row)
{
    vehicle_finding out = range_of_settings(row + SETTINGS_AT, row_names + SETTINGS_AT, STORED_SETTING);
    if (!out.field)
        out = range_of_brake("stored brake", row[CONTROLS_AT + BRAKE], STORED_SETTING);
    if (out.field)
        return out;
    return row[KIND_AT] != 0 ? range_of_angle("stored steering angle", row[ANGLE_AT], STORED_SETTING) : range_of_rotation("sum of squares of the stored steering", row + ROTATION_AT, STORED_SETTING);
}

static vehicle_finding range_of_rows(const struct lent *lent)
{
    vehicle_finding out = nothing_found(0);
    for (uint32_t wheel = 0; !out.field && wheel < lent->whole[COUNT]; wheel++)
        out = of_wheel(range_of_row(row_of(lent->table, wheel)), wheel);
    return out;
}

static vehicle_finding out_of_range_to_aim(const struct lent *lent, const float *chassis)
{
    vehicle_finding out = range_of_chassis(chassis, chassis_names, NULL);
    return out.field ? out : range_of_rows(lent);
}

static vehicle_finding out_of_range_to_drive(const struct lent *lent, const struct lists *lists)
{
    vehicle_finding out = nothing_found(0);
    if (!(lists->dt >= 0 && lists->dt <= 1))
        return found("dt", lists->dt, "a time step is in seconds from 0 to 1", 0, "Hand in seconds, not milliseconds and not frames a second: 1/60 for 60 frames a second.");
    for (size_t body = 0; body < lists->dynamic_len; body++) {
        float inverse_mass = lists->bodies[VEHICLE_BODY_LEN * body + BODY_INVMASS];
        if (!(inverse_mass >= 0))
            return of_body(found(body_names[BODY_INVMASS], inverse_mass, "it is at least 0", 0, "Hand in 1 divided by the mass in kg, or 0 for a body that does not give way."), body);
    }
    out = range_of_rows(lent);
    return out.field ? out : range_of_chassis(lent->table, kept_names, STORED_SETTING);
}

/* ---- 17, 7 and 8: what the call would have made, on a copy ---- */

static vehicle_finding bad_turn(const struct lent *lent, const float *chassis)
{
    float table[VEHICLE_TABLE_LEN];
    memcpy(table, lent->table, sizeof table);
    would_aim(table, lent->whole[COUNT], chassis);
    for (uint32_t wheel = 0; wheel < lent->whole[COUNT]; wheel++) {
        const float *row = row_of(table, wheel), *direction = row + SETTINGS_AT + DIRECTION;
        double x = direction[0], y = direction[1], z = direction[2];
        if (row[KIND_AT] != 0 && !is_in_band(turn_squared(row)))
            return of_wheel(found("sum of squares of the direction", x * x + y * y + z * z, "an angle turns about the suspension's direction, which is about one long", 0, "Add the wheel with a direction of length one, down from the chassis; or steer it by a rotation, which needs none."), wheel);
    }
    return nothing_found(0);
}

static vehicle_finding wild_aim(const struct lent *lent, const float *chassis)
{
    float table[VEHICLE_TABLE_LEN];
    memcpy(table, lent->table, sizeof table);
    would_aim(table, lent->whole[COUNT], chassis);
    return beyond_stored(table, lent->whole[COUNT], "The aim would store this. Look for a translation or a connection point far from the origin, or a direction far from length one.");
}

static vehicle_finding wild_demand(const float *row, float limit)
{
    static const char bound[] = "a tyre's demands and its grip limit are at most %llu in size";
    unsigned long long most = (unsigned long long)STORED;
    if (!(limit <= STORED))
        return found("grip limit", limit, bound, most, "It is the spring's force times dt times slip. Stiffness and dampings are multiplied by the mass: lower them, or the slip.");
    if (!(fabsf(row[SIDE_IMPULSE]) <= STORED))
        return found("side demand", row[SIDE_IMPULSE], bound, most, "It is what stops the sideways motion. Look for a wild velocity, a wild mass or a wild side_stiffness.");
    if (!(fabsf(row[FORWARD_IMPULSE]) <= STORED))
        return found("forward demand", row[FORWARD_IMPULSE], bound, most, "It is what stops the rolling, or the engine times dt. Look for a wild velocity, mass or inertia.");
    return nothing_found(0);
}

static vehicle_finding wild_grip(const struct lent *lent, const struct lists *lists)
{
    float table[VEHICLE_TABLE_LEN], limits[VEHICLE_MOST_WHEELS];
    vehicle_finding wild = nothing_found(0);
    memcpy(table, lent->table, sizeof table);
    would_demand(table, lent->whole[COUNT], lists, limits);
    for (uint32_t wheel = 0; !wild.field && wheel < lent->whole[COUNT]; wheel++)
        if (lists->kinds[wheel] != VEHICLE_NOTHING)
            wild = of_wheel(wild_demand(row_of(table, wheel), limits[wheel]), wheel);
    return wild;
}

static vehicle_finding wild_step(const struct lent *lent, const struct lists *lists)
{
    float table[VEHICLE_TABLE_LEN];
    memcpy(table, lent->table, sizeof table);
    would_drive(table, lent->whole[COUNT], lent->whole[UP], lists);
    return beyond_stored(table, lent->whole[COUNT], "The step would store this. Look for springs far too stiff for the mass, a very small radius, a very light chassis or a very high speed.");
}

/* ---- The calls ---- */

static vehicle_finding for_answer(vehicle_finding finding, uint32_t answer)
{
    if (!finding.field)
        return nothing_found(answer);
    finding.refusal = answer;
    return finding;
}

vehicle_finding vehicle_explain_set_up(uint32_t answer, const float *table, size_t table_len, const uint32_t *whole, size_t whole_len, uint32_t up, uint32_t forward)
{
    static const char advice[] = "Hand in one of these; the Rust source has y up and x forward.";
    vehicle_finding length = length_of("length of the table", table_len, VEHICLE_TABLE_LEN);
    (void)table;
    (void)whole;
    if (answer != VEHICLE_NO_VEHICLE)
        return nothing_found(answer);
    if (!length.field)
        length = length_of("length of the whole numbers", whole_len, VEHICLE_WHOLE_LEN);
    if (!length.field && up > 2)
        length = found("up axis", up, AXES, 0, advice);
    if (!length.field && forward > 2)
        length = found("forward axis", forward, AXES, 0, advice);
    return for_answer(length, answer);
}

vehicle_finding vehicle_explain_add_wheel(uint32_t answer, const float *table, size_t table_len, const uint32_t *whole, size_t whole_len, const float *settings, size_t settings_len)
{
    struct lent lent = {table, table_len, whole, whole_len};
    struct numbers handed = {settings, settings_len, settings_names};
    if (answer == VEHICLE_NO_VEHICLE)
        return for_answer(no_vehicle(&lent, "length of the settings", settings_len, VEHICLE_SETTINGS_LEN), answer);
    if (!is_vehicle(&lent) || settings_len != VEHICLE_SETTINGS_LEN)
        return nothing_found(answer);
    if (answer == VEHICLE_FULL)
        return for_answer(full(&lent), answer);
    if (answer == VEHICLE_BAD_NUMBER)
        return for_answer(bad_number(&lent, handed, (int32_t)whole[COUNT]), answer);
    if (answer == VEHICLE_OUT_OF_RANGE)
        return for_answer(of_wheel(range_of_settings(settings, settings_names, NULL), whole[COUNT]), answer);
    return nothing_found(answer);
}

/* Both forms of controls, by the names of their numbers and their ranges. */
static vehicle_finding explain_controls(uint32_t answer, const struct lent *lent, uint32_t wheel, struct numbers handed, size_t expected, vehicle_finding (*range)(const float *))
{
    if (answer == VEHICLE_NO_VEHICLE)
        return for_answer(no_vehicle(lent, "length of the controls", handed.len, expected), answer);
    if (!is_vehicle(lent) || handed.len != expected)
        return nothing_found(answer);
    if (answer == VEHICLE_NO_SUCH_WHEEL)
        return for_answer(no_such_wheel(lent, wheel), answer);
    if (answer == VEHICLE_BAD_NUMBER)
        return for_answer(bad_number(lent, handed, (int32_t)wheel), answer);
    if (answer == VEHICLE_OUT_OF_RANGE)
        return for_answer(of_wheel(range(handed.first), wheel), answer);
    return nothing_found(answer);
}

vehicle_finding vehicle_explain_set_controls(uint32_t answer, const float *table, size_t table_len, const uint32_t *whole, size_t whole_len, uint32_t wheel, const float *controls, size_t controls_len)
{
    struct lent lent = {table, table_len, whole, whole_len};
    struct numbers handed = {controls, controls_len, controls_names};
    return explain_controls(answer, &lent, wheel, handed, VEHICLE_CONTROLS_LEN, range_of_controls);
}

vehicle_finding vehicle_explain_set_controls_by_angle(uint32_t answer, const float *table, size_t table_len, const uint32_t *whole, size_t whole_len, uint32_t wheel, const float *controls, size_t controls_len)
{
    struct lent lent = {table, table_len, whole, whole_len};
    struct numbers handed = {controls, controls_len, by_angle_names};
    return explain_controls(answer, &lent, wheel, handed, VEHICLE_CONTROLS_BY_ANGLE_LEN, range_of_controls_by_angle);
}

vehicle_finding vehicle_explain_aim(uint32_t answer, const float *table, size_t table_len, const uint32_t *whole, size_t whole_len, const float *chassis, size_t chassis_len, const float *results, size_t results_len)
{
    struct lent lent = {table, table_len, whole, whole_len};
    struct numbers handed = {chassis, chassis_len, chassis_names};
    vehicle_finding list = length_of("length of the results", results_len, VEHICLE_AIM_LEN);
    (void)results;
    if (answer == VEHICLE_NO_VEHICLE) {
        vehicle_finding shape = no_vehicle(&lent, "length of the chassis", chassis_len, VEHICLE_CHASSIS_LEN);
        return for_answer(shape.field ? shape : list, answer);
    }
    if (!is_vehicle(&lent) || chassis_len != VEHICLE_CHASSIS_LEN)
        return nothing_found(answer);
    if (answer == VEHICLE_BAD_NUMBER)
        return for_answer(bad_number(&lent, handed, VEHICLE_NONE), answer);
    if (answer == VEHICLE_OUT_OF_RANGE)
        return for_answer(out_of_range_to_aim(&lent, chassis), answer);
    if (answer == VEHICLE_BAD_TURN)
        return for_answer(bad_turn(&lent, chassis), answer);
    if (answer == VEHICLE_WILD_STEP)
        return for_answer(wild_aim(&lent, chassis), answer);
    return nothing_found(answer);
}

/* A drive whose lists fit together, so that each number of them may be looked at. */
static vehicle_finding explain_step(uint32_t answer, const struct lent *lent, const struct lists *lists)
{
    switch (answer) {
    case VEHICLE_BAD_NUMBER:
        return bad_number_to_drive(lent, lists);
    case VEHICLE_BAD_NORMAL:
        return bad_normal(lent, lists);
    case VEHICLE_OUT_OF_RANGE:
        return out_of_range_to_drive(lent, lists);
    case VEHICLE_WILD_GRIP:
        return wild_grip(lent, lists);
    case VEHICLE_WILD_STEP:
        return wild_step(lent, lists);
    default:
        return nothing_found(answer);
    }
}

vehicle_finding vehicle_explain_drive(uint32_t answer, const float *table, size_t table_len, const uint32_t *whole, size_t whole_len, float dt, const float *bodies, size_t bodies_len, const uint32_t *dynamic, size_t dynamic_len, const uint32_t *kinds, size_t kinds_len, const uint32_t *named, size_t named_len, const float *rays, size_t rays_len, const float *results, size_t results_len)
{
    struct lent lent = {table, table_len, whole, whole_len};
    struct lists lists = {dt, bodies, bodies_len, dynamic, dynamic_len, kinds, kinds_len, named, named_len, rays, rays_len};
    vehicle_finding bad;
    (void)results;
    if (answer == VEHICLE_NO_VEHICLE)
        return for_answer(no_vehicle(&lent, "length of the results", results_len, VEHICLE_DRIVE_LEN), answer);
    if (!is_vehicle(&lent))
        return nothing_found(answer);
    if (answer == VEHICLE_WRONG_MOMENT)
        return for_answer(wrong_moment_to_drive(&lent), answer);
    bad = bad_lists(&lent, &lists);
    if (answer == VEHICLE_BAD_LISTS || bad.field)
        return for_answer(answer == VEHICLE_BAD_LISTS ? bad : nothing_found(0), answer);
    return for_answer(explain_step(answer, &lent, &lists), answer);
}

vehicle_finding vehicle_explain_read_wheel(uint32_t answer, const float *table, size_t table_len, const uint32_t *whole, size_t whole_len, uint32_t wheel, const float *results, size_t results_len)
{
    struct lent lent = {table, table_len, whole, whole_len};
    (void)results;
    if (answer == VEHICLE_NO_VEHICLE)
        return for_answer(no_vehicle(&lent, "length of the results", results_len, VEHICLE_READ_LEN), answer);
    if (!is_vehicle(&lent))
        return nothing_found(answer);
    if (answer == VEHICLE_NO_SUCH_WHEEL)
        return for_answer(no_such_wheel(&lent, wheel), answer);
    if (answer == VEHICLE_WRONG_MOMENT)
        return for_answer(wrong_moment_to_read(&lent), answer);
    return answer == VEHICLE_BAD_NUMBER ? for_answer(bad_stored(&lent), answer) : nothing_found(answer);
}
