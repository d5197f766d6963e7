/* What an aim and a drive would leave, worked out on a copy by docs/RULES.md, rules 1 and 3 to 10: for the words of refusals 7, 8 and 17 alone. */
#ifndef VEHICLE_STEP_H
#define VEHICLE_STEP_H

#include "vehicle_help.h"

/* The archive's own names, so that none is a host's. */
#define would_aim vehicle_help_would_aim
#define turn_squared vehicle_help_turn_squared
#define would_demand vehicle_help_would_demand
#define would_drive vehicle_help_would_drive

/* The lists of a drive. */
struct lists {
    float dt;
    const float *bodies;
    size_t bodies_len;
    const uint32_t *dynamic;
    size_t dynamic_len;
    const uint32_t *kinds;
    size_t kinds_len;
    const uint32_t *named;
    size_t named_len;
    const float *rays;
    size_t rays_len;
};

/* The table after an aim of this chassis. */
void would_aim(float table[VEHICLE_TABLE_LEN], uint32_t count, const float chassis[VEHICLE_CHASSIS_LEN]);

/* The sum of squares of the rotation that a wheel's steering angle makes in a table after an aim: 1 or near it, or 0 where there is no axis. */
float turn_squared(const float *row);

/* The table after a drive as far as its demands, with the grip limits of the wheels; and after all of it. */
void would_demand(float table[VEHICLE_TABLE_LEN], uint32_t count, const struct lists *lists, float limits[VEHICLE_MOST_WHEELS]);
void would_drive(float table[VEHICLE_TABLE_LEN], uint32_t count, uint32_t up, const struct lists *lists);

#endif
