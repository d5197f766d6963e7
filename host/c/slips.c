/* The library with one slip, to see that host/run finds it. Each wraps a proved function, which the build has renamed to proved_... */
#include <string.h>

#include "vehicle.h"

uint32_t proved_vehicle_add_wheel(float *, size_t, uint32_t *, size_t, const float *, size_t);
uint32_t proved_vehicle_set_controls(float *, size_t, uint32_t *, size_t, uint32_t, const float *, size_t);
uint32_t proved_vehicle_set_controls_by_angle(float *, size_t, uint32_t *, size_t, uint32_t, const float *, size_t);
uint32_t proved_vehicle_aim(float *, size_t, uint32_t *, size_t, const float *, size_t, float *, size_t);
uint32_t proved_vehicle_drive(float *, size_t, uint32_t *, size_t, float, const float *, size_t, const uint32_t *, size_t, const uint32_t *, size_t, const uint32_t *, size_t, const float *, size_t, float *, size_t);
uint32_t proved_vehicle_read_wheel(const float *, size_t, const uint32_t *, size_t, uint32_t, float *, size_t);

#define COUNT 0
#define MARK 1
#define AIMED 1

/* In a wheel's row: its direction, the angle, whether that was given last, and the last two numbers. */
#define ROW ((VEHICLE_TABLE_LEN - VEHICLE_CHASSIS_LEN) / VEHICLE_MOST_WHEELS)
#define IN_ROW(table, wheel, place) ((table) + VEHICLE_CHASSIS_LEN + (wheel) * ROW + (place))
#define DIRECTION(table, wheel) IN_ROW(table, wheel, 22)
#define ANGLE(table, wheel) IN_ROW(table, wheel, 44)
#define KIND(table, wheel) IN_ROW(table, wheel, 45)
#define FELL_BACK(table, wheel) IN_ROW(table, (wheel) + 1, -2)

uint32_t vehicle_add_wheel(float *table, size_t table_len, uint32_t *whole, size_t whole_len, const float *settings, size_t settings_len)
{
#if SLIP == 1 /* settings that are too long are taken, as far as they go */
    if (settings_len > VEHICLE_SETTINGS_LEN)
        settings_len = VEHICLE_SETTINGS_LEN;
#endif
#if SLIP == 2 /* the vector of the axle is not looked at */
    float sound[VEHICLE_SETTINGS_LEN];
    if (settings_len == VEHICLE_SETTINGS_LEN) {
        memcpy(sound, settings, sizeof sound);
        if (sound[8] != sound[8])
            sound[8] = 0;
        settings = sound;
    }
#endif
#if SLIP == 12 /* every wheel leans by the Rust source's roll influence */
    float fixed[VEHICLE_SETTINGS_LEN];
    if (settings_len == VEHICLE_SETTINGS_LEN && settings[18] >= 0 && settings[18] <= 1) {
        memcpy(fixed, settings, sizeof fixed);
        fixed[18] = VEHICLE_ROLL_INFLUENCE;
        settings = fixed;
    }
#endif
    return proved_vehicle_add_wheel(table, table_len, whole, whole_len, settings, settings_len);
}

uint32_t vehicle_set_controls(float *table, size_t table_len, uint32_t *whole, size_t whole_len, uint32_t wheel, const float *controls, size_t controls_len)
{
#if SLIP == 3 /* an aimed vehicle stays aimed */
    uint32_t before = whole_len == VEHICLE_WHOLE_LEN ? whole[MARK] : 0;
    uint32_t number = proved_vehicle_set_controls(table, table_len, whole, whole_len, wheel, controls, controls_len);
    if (number == 0 && before == AIMED)
        whole[MARK] = AIMED;
    return number;
#elif SLIP == 17 /* a rotation does not take the place of an angle */
    float kind = table_len == VEHICLE_TABLE_LEN && wheel < VEHICLE_MOST_WHEELS ? *KIND(table, wheel) : 0;
    uint32_t number = proved_vehicle_set_controls(table, table_len, whole, whole_len, wheel, controls, controls_len);
    if (number == 0)
        *KIND(table, wheel) = kind;
    return number;
#else
    return proved_vehicle_set_controls(table, table_len, whole, whole_len, wheel, controls, controls_len);
#endif
}

uint32_t vehicle_set_controls_by_angle(float *table, size_t table_len, uint32_t *whole, size_t whole_len, uint32_t wheel, const float *controls, size_t controls_len)
{
#if SLIP == 18 /* an angle beyond the range is taken as the end of it */
    float clamped[VEHICLE_CONTROLS_BY_ANGLE_LEN];
    if (controls_len == VEHICLE_CONTROLS_BY_ANGLE_LEN && controls[2] > 2 && controls[2] <= 1048576) {
        memcpy(clamped, controls, sizeof clamped);
        clamped[2] = 2;
        controls = clamped;
    }
#endif
    return proved_vehicle_set_controls_by_angle(table, table_len, whole, whole_len, wheel, controls, controls_len);
}

#if SLIP == 15 /* an angle turns the other way */
static float slipped(float angle, const float *direction)
{
    (void)direction;
    return -angle;
}
#endif
#if SLIP == 16 /* a longer direction turns further, as in the Rust source */
static float slipped(float angle, const float *direction)
{
    float further = angle * vehicle_root(direction[0] * direction[0] + direction[1] * direction[1] + direction[2] * direction[2]);
    return angle >= -2 && angle <= 2 && further >= -2 && further <= 2 ? further : angle;
}
#endif

uint32_t vehicle_aim(float *table, size_t table_len, uint32_t *whole, size_t whole_len, const float *chassis, size_t chassis_len, float *results, size_t results_len)
{
    uint32_t number;
#if SLIP == 15 || SLIP == 16 /* other angles while the proved aim works, and the stored ones again after it */
    float angles[VEHICLE_MOST_WHEELS];
    size_t wheel, wheels = table_len == VEHICLE_TABLE_LEN ? VEHICLE_MOST_WHEELS : 0;
    for (wheel = 0; wheel < wheels; wheel++) {
        angles[wheel] = *ANGLE(table, wheel);
        *ANGLE(table, wheel) = slipped(angles[wheel], DIRECTION(table, wheel));
    }
#endif
    number = proved_vehicle_aim(table, table_len, whole, whole_len, chassis, chassis_len, results, results_len);
#if SLIP == 15 || SLIP == 16
    for (wheel = 0; wheel < wheels; wheel++)
        *ANGLE(table, wheel) = angles[wheel];
#endif
#if SLIP == 4 /* a refused aim keeps the chassis all the same */
    if (number == VEHICLE_OUT_OF_RANGE)
        memcpy(table, chassis, chassis_len * sizeof *chassis);
#endif
#if SLIP == 5 /* an aim gives one sight less than there are wheels */
    if (number == 0 && whole[COUNT] > 0)
        memset(results + 1 + 6 * (whole[COUNT] - 1), 0, 6 * sizeof *results);
#endif
    return number;
}

uint32_t vehicle_drive(float *table, size_t table_len, uint32_t *whole, size_t whole_len, float dt, const float *bodies, size_t bodies_len, const uint32_t *dynamic, size_t dynamic_len, const uint32_t *kinds, size_t kinds_len, const uint32_t *named, size_t named_len, const float *rays, size_t rays_len, float *results, size_t results_len)
{
    uint32_t number;
#if SLIP == 6 /* the lists are looked at before the mark */
    if (results_len == VEHICLE_DRIVE_LEN && kinds_len > VEHICLE_MOST_WHEELS)
        return VEHICLE_BAD_LISTS;
#endif
#if SLIP == 14 /* of a wheel in the air it is kept what the drive before said of its directions */
    float before[VEHICLE_MOST_WHEELS][2] = {{0}};
    size_t wheel;
    if (table_len == VEHICLE_TABLE_LEN)
        for (wheel = 0; wheel < VEHICLE_MOST_WHEELS; wheel++)
            memcpy(before[wheel], FELL_BACK(table, wheel), sizeof before[wheel]);
#endif
    number = proved_vehicle_drive(table, table_len, whole, whole_len, dt, bodies, bodies_len, dynamic, dynamic_len, kinds, kinds_len, named, named_len, rays, rays_len, results, results_len);
#if SLIP == 14
    for (wheel = 0; number == 0 && wheel < kinds_len; wheel++)
        if (kinds[wheel] == VEHICLE_NOTHING)
            memcpy(FELL_BACK(table, wheel), before[wheel], sizeof before[wheel]);
#endif
#if SLIP == 7 /* a refusal clears the results */
    if (number != 0)
        memset(results, 0, results_len * sizeof *results);
#endif
#if SLIP == 8 /* a stored number is off by its last bit */
    if (number == 0 && whole[COUNT] > 0) {
        uint32_t bits;
        memcpy(&bits, table + VEHICLE_CHASSIS_LEN, sizeof bits);
        bits ^= 1;
        memcpy(table + VEHICLE_CHASSIS_LEN, &bits, sizeof bits);
    }
#endif
    return number;
}

uint32_t vehicle_read_wheel(const float *table, size_t table_len, const uint32_t *whole, size_t whole_len, uint32_t wheel, float *results, size_t results_len)
{
    uint32_t number = proved_vehicle_read_wheel(table, table_len, whole, whole_len, wheel, results, results_len);
#if SLIP == 9 /* a wheel that was not driven is read as zeros: every tyre at the origin */
    if (number == VEHICLE_WRONG_MOMENT) {
        memset(results, 0, results_len * sizeof *results);
        return 0;
    }
#endif
#if SLIP == 11 /* the old centre in the settled one's place: every tyre a frame late */
    if (number == 0)
        memcpy(results + VEHICLE_READ_SETTLED, results, 3 * sizeof *results);
#endif
#if SLIP == 13 /* what fell back: the axis and the forward direction exchanged */
    if (number == 0) {
        float no_axis = results[VEHICLE_READ_NO_AXIS];
        results[VEHICLE_READ_NO_AXIS] = results[VEHICLE_READ_NO_FORWARD];
        results[VEHICLE_READ_NO_FORWARD] = no_axis;
    }
#endif
#if SLIP == 10 /* looks one number beyond the table */
    {
        volatile float beyond = table[table_len];
        (void)beyond;
    }
#endif
    return number;
}
