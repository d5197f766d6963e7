/* A vehicle's lent numbers, and the calls on them whose arguments the programs beside this share, with every length filled in. */
#include "vehicle.h"

struct car {
    float table[VEHICLE_TABLE_LEN];
    uint32_t whole[VEHICLE_WHOLE_LEN];
};

static inline uint32_t set_up(struct car *car, uint32_t up, uint32_t forward)
{
    return vehicle_set_up(car->table, VEHICLE_TABLE_LEN, car->whole, VEHICLE_WHOLE_LEN, up, forward);
}

static inline uint32_t add_wheel(struct car *car, const float settings[VEHICLE_SETTINGS_LEN])
{
    return vehicle_add_wheel(car->table, VEHICLE_TABLE_LEN, car->whole, VEHICLE_WHOLE_LEN, settings, VEHICLE_SETTINGS_LEN);
}

/* Steers straight on. */
static inline uint32_t set_controls(struct car *car, uint32_t wheel, float engine, float brake)
{
    float controls[VEHICLE_CONTROLS_LEN] = {0, 0, 0, 0, 0, 1};
    controls[0] = engine;
    controls[1] = brake;
    return vehicle_set_controls(car->table, VEHICLE_TABLE_LEN, car->whole, VEHICLE_WHOLE_LEN, wheel, controls, VEHICLE_CONTROLS_LEN);
}

/* Steers by an angle. */
static inline uint32_t steer(struct car *car, uint32_t wheel, float engine, float brake, float angle)
{
    float controls[VEHICLE_CONTROLS_BY_ANGLE_LEN];
    controls[0] = engine;
    controls[1] = brake;
    controls[2] = angle;
    return vehicle_set_controls_by_angle(car->table, VEHICLE_TABLE_LEN, car->whole, VEHICLE_WHOLE_LEN, wheel, controls, VEHICLE_CONTROLS_BY_ANGLE_LEN);
}

static inline uint32_t read_wheel(const struct car *car, uint32_t wheel, float tyre[VEHICLE_READ_LEN])
{
    return vehicle_read_wheel(car->table, VEHICLE_TABLE_LEN, car->whole, VEHICLE_WHOLE_LEN, wheel, tyre, VEHICLE_READ_LEN);
}
