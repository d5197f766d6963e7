/* Where each number stands in the lists of vehicle.h and in the table, and what it is called. The places are counted one from the other;
 * host/vehicle/tests/sizes.rs holds them to the library. */
#ifndef VEHICLE_FIELDS_H
#define VEHICLE_FIELDS_H

#include "vehicle_help.h"

/* The chassis, handed in or kept at the start of the table. */
enum {
    TRANSLATION = 0,
    ORIENTATION = TRANSLATION + 3,
    MASS_CENTRE = ORIENTATION + 4,
    LINVEL = MASS_CENTRE + 3,
    ANGVEL = LINVEL + 3,
    INVMASS = ANGVEL + 3,
    EFFECTIVE = INVMASS + 1,
    INERTIA = EFFECTIVE + 3
};

/* A ground body. */
enum { BODY_CENTRE = 0, BODY_LINVEL = BODY_CENTRE + 3, BODY_ANGVEL = BODY_LINVEL + 3, BODY_INVMASS = BODY_ANGVEL + 3, BODY_INERTIA = BODY_INVMASS + 1 };

/* A ray answer. */
enum { TIME = 0, HIT_NORMAL = TIME + 1, UPWARD_NORMAL = HIT_NORMAL + 3 };

/* The settings of a wheel. */
enum {
    CONNECTION = 0,
    DIRECTION = CONNECTION + 3,
    AXLE = DIRECTION + 3,
    REST = AXLE + 3,
    RADIUS = REST + 1,
    STIFFNESS = RADIUS + 1,
    COMPRESSION = STIFFNESS + 1,
    DAMPING = COMPRESSION + 1,
    TRAVEL = DAMPING + 1,
    SIDEWAYS = TRAVEL + 1,
    SLIP = SIDEWAYS + 1,
    MOST = SLIP + 1,
    ROLL = MOST + 1
};

/* The controls of a wheel, as they are handed in: with a rotation or with an angle. */
enum { ENGINE = 0, BRAKE = ENGINE + 1, STEERING = BRAKE + 1 };

/* A row of the table. */
enum {
    NORMAL = 0,
    POINT = NORMAL + 3,
    LENGTH = POINT + 3,
    HARD = LENGTH + 1,
    CENTRE = HARD + 3,
    WORLD_DIRECTION = CENTRE + 3,
    WORLD_AXLE = WORLD_DIRECTION + 3,
    SETTINGS_AT = WORLD_AXLE + 3,
    CONTROLS_AT = SETTINGS_AT + VEHICLE_SETTINGS_LEN,
    ROTATION_AT = CONTROLS_AT + STEERING,
    ANGLE_AT = ROTATION_AT + 4,
    KIND_AT = ANGLE_AT + 1,
    VELOCITY = KIND_AT + 1,
    INVERSE = VELOCITY + 1,
    ROTATION = INVERSE + 1,
    SPIN = ROTATION + 1,
    FORCE = SPIN + 1,
    FORWARD_IMPULSE = FORCE + 1,
    SIDE_IMPULSE = FORWARD_IMPULSE + 1,
    SKID = SIDE_IMPULSE + 1,
    AXIS_FALLBACK = SKID + 1,
    FORWARD_FALLBACK = AXIS_FALLBACK + 1,
    ROW = FORWARD_FALLBACK + 1
};

/* The whole numbers, and what the mark says. */
enum { COUNT = 0, MARK = COUNT + 1, UP = MARK + 1, FORWARD = UP + 1 };
enum { NEW = 0, AIMED = 1, DRIVEN = 2 };

/* The bounds of refusals 2, 7 and 8, and those of a sum of squares. */
#define HANDED 1048576.0f
#define STORED 1099511627776.0f
#define BAND_LOW (1.0f - 1.0f / 1024)
#define BAND_HIGH (1.0f + 1.0f / 1024)
#define LEAST_INVMASS (1.0f / HANDED)
#define MOST_ANGLE 2.0f

/* A wheel's row, to read and to write. */
static inline const float *row_of(const float *table, uint32_t wheel)
{
    return table + VEHICLE_CHASSIS_LEN + ROW * (size_t)wheel;
}

static inline float *row_in(float *table, uint32_t wheel)
{
    return table + VEHICLE_CHASSIS_LEN + ROW * (size_t)wheel;
}

#define VECTOR_NAMES(of) of ".x", of ".y", of ".z"
#define ROTATION_NAMES(of) VECTOR_NAMES(of), of ".w"
#define INERTIA_NAMES(of) of ".xx", of ".xy", of ".xz", of ".yy", of ".yz", of ".zz"
#define MOTION_NAMES(of) VECTOR_NAMES(of "centre_of_mass"), VECTOR_NAMES(of "linear_velocity"), VECTOR_NAMES(of "angular_velocity"), of "inverse_mass"
#define CHASSIS_NAMES(of) VECTOR_NAMES(of "translation"), ROTATION_NAMES(of "rotation"), MOTION_NAMES(of), VECTOR_NAMES(of "effective_inverse_masses"), INERTIA_NAMES(of "inverse_inertia")
#define BODY_NAMES MOTION_NAMES(""), INERTIA_NAMES("inverse_inertia")
#define RAY_NAMES "hit time", VECTOR_NAMES("normal"), VECTOR_NAMES("upward normal")
#define TUNING_NAMES(of) of "stiffness", of "compression", of "damping", of "travel", of "side_stiffness", of "slip", of "most_force"
#define SETTINGS_NAMES(of) VECTOR_NAMES(of "connection"), VECTOR_NAMES(of "direction"), VECTOR_NAMES(of "axle"), of "rest_length", of "radius", TUNING_NAMES(of), of "roll_influence"
#define CONTROLS_NAMES(of) of "engine", of "brake", ROTATION_NAMES(of "steering")
#define BY_ANGLE_NAMES "engine", "brake", "steering angle"
#define ROW_NAMES VECTOR_NAMES("stored contact normal"), VECTOR_NAMES("stored contact point"), "stored suspension length", VECTOR_NAMES("stored hard point"), VECTOR_NAMES("stored centre"), VECTOR_NAMES("stored world direction"), VECTOR_NAMES("stored world axle"), SETTINGS_NAMES("stored "), CONTROLS_NAMES("stored "), "stored steering angle", "stored kind of steering", "stored suspension velocity", "stored inverse of the slope", "stored rotation of the wheel", "stored spin", "stored suspension force", "stored forward impulse", "stored side impulse", "stored skid", "stored no axis", "stored no forward direction"

#endif
