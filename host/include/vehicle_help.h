/* Help around the vehicle controller, in plain C: why a call was refused, what is accepted and hardly meant, the lists of a chassis, a ground
 * body and a wheel from what a host has, and a vehicle as bytes.
 *
 * Link with libvehicle_help.a, before libvehicle_controller.a. Unlike the calls of vehicle.h nothing here is proved, and nothing here changes
 * what they answer: each function reads what it is handed and writes to its own results alone. What the numbers mean is told in
 * docs/NUMBERS.md, what is refused in docs/RULES.md.
 */
#ifndef VEHICLE_HELP_H
#define VEHICLE_HELP_H

#include "vehicle.h"

#ifdef __cplusplus
extern "C" {
#endif

/* ---- One number that broke a bound, or is hardly meant. ---- */

#define VEHICLE_BOUND_LEN 128 /* the longest text of a bound, with its end */
#define VEHICLE_WORDS_LEN 640 /* room for the longest words of a finding, with their end */
#define VEHICLE_NONE (-1)

typedef struct {
    uint32_t refusal;              /* the refusal that it explains; 0 for what was accepted and is hardly meant */
    int32_t wheel;                 /* the wheel that it is of, or VEHICLE_NONE */
    int32_t body;                  /* the ground body that it is of, counted from 0, or VEHICLE_NONE */
    const char *field;             /* what the number is called; NULL where nothing was found */
    double value;                  /* what it is */
    char bound[VEHICLE_BOUND_LEN]; /* what holds for it, as "times are fractions of the ray from 0 to 1" */
    const char *advice;            /* what to do at this call */
} vehicle_finding;

/* The finding in words, as "wheel 2: hit time 1.3, times are fractions of the ray from 0 to 1. Divide ..". As snprintf does: writes at most
 * text_len characters with the end, and gives how many there are without it. */
size_t vehicle_words(const vehicle_finding *finding, char *text, size_t text_len);

/* ---- Why a call was refused. ----
 *
 * Each takes what the call answered and then exactly what the call was handed, as it was handed. A refusal changes nothing, so that is still
 * there. Ask only for what the call answered: for 0, and for a refusal that is tested before the one that was given, the field is NULL. */

vehicle_finding vehicle_explain_set_up(uint32_t answer, const float *table, size_t table_len, const uint32_t *whole, size_t whole_len, uint32_t up, uint32_t forward);
vehicle_finding vehicle_explain_add_wheel(uint32_t answer, const float *table, size_t table_len, const uint32_t *whole, size_t whole_len, const float *settings, size_t settings_len);
vehicle_finding vehicle_explain_set_controls_by_angle(uint32_t answer, const float *table, size_t table_len, const uint32_t *whole, size_t whole_len, uint32_t wheel, const float *controls, size_t controls_len);
vehicle_finding vehicle_explain_set_controls(uint32_t answer, const float *table, size_t table_len, const uint32_t *whole, size_t whole_len, uint32_t wheel, const float *controls, size_t controls_len);
vehicle_finding vehicle_explain_aim(uint32_t answer, const float *table, size_t table_len, const uint32_t *whole, size_t whole_len, const float *chassis, size_t chassis_len, const float *results, size_t results_len);
vehicle_finding vehicle_explain_drive(uint32_t answer, const float *table, size_t table_len, const uint32_t *whole, size_t whole_len, float dt, const float *bodies, size_t bodies_len, const uint32_t *dynamic, size_t dynamic_len, const uint32_t *kinds, size_t kinds_len, const uint32_t *named, size_t named_len, const float *rays, size_t rays_len, const float *results, size_t results_len);
vehicle_finding vehicle_explain_read_wheel(uint32_t answer, const float *table, size_t table_len, const uint32_t *whole, size_t whole_len, uint32_t wheel, const float *results, size_t results_len);

/* ---- What is accepted and hardly meant: the strict mode. ----
 *
 * Each looks at what was handed to an accepted call, with the vehicle's numbers after it, writes at most `most` findings, and gives how many
 * there are: with 0 for `most` it only counts them, and `doubts` may be NULL. */

size_t vehicle_doubts_set_up(uint32_t up, uint32_t forward, vehicle_finding *doubts, size_t most);
size_t vehicle_doubts_add_wheel(const uint32_t whole[VEHICLE_WHOLE_LEN], const float settings[VEHICLE_SETTINGS_LEN], vehicle_finding *doubts, size_t most);
size_t vehicle_doubts_set_controls_by_angle(const uint32_t whole[VEHICLE_WHOLE_LEN], uint32_t wheel, const float controls[VEHICLE_CONTROLS_BY_ANGLE_LEN], vehicle_finding *doubts, size_t most);
size_t vehicle_doubts_set_controls(const uint32_t whole[VEHICLE_WHOLE_LEN], uint32_t wheel, const float controls[VEHICLE_CONTROLS_LEN], vehicle_finding *doubts, size_t most);
size_t vehicle_doubts_aim(const uint32_t whole[VEHICLE_WHOLE_LEN], const float chassis[VEHICLE_CHASSIS_LEN], vehicle_finding *doubts, size_t most);
size_t vehicle_doubts_drive(const float table[VEHICLE_TABLE_LEN], float dt, const float *bodies, size_t bodies_len, const uint32_t *kinds, size_t kinds_len, const float *rays, size_t rays_len, vehicle_finding *doubts, size_t most);

/* ---- The lists of vehicle.h from what a host has. ----
 *
 * They are worked out in double precision, each operation rounded once, and rounded to single precision at the end: the same bits from every
 * language, whatever the host itself is compiled with, in the floating-point mode that vehicle.h asks for. A number that cannot be had, as the inverse of a mass of 0, is infinite or NaN in the
 * list, and the call that is handed it refuses it by name. */

/* A rigid body, in SI units. */
typedef struct {
    float mass;                    /* kg */
    float local_centre_of_mass[3]; /* m, from its position, along its own axes */
    float local_inertia[6];        /* kg m^2, about its centre of mass, along its own axes: xx, xy, xz, yy, yz, zz */
    float position[3];             /* m, in the world */
    float rotation[4];             /* x, y, z, w, of unit length */
    float linear_velocity[3];      /* m/s, of its centre of mass, in the world */
    float angular_velocity[3];     /* rad/s, in the world */
    uint32_t locked[3];            /* 1 where it cannot move along this axis of the world, else 0 */
} vehicle_rigid_body;

/* The chassis that vehicle_aim takes: inverse mass, centre of mass and inverse inertia in the world. */
void vehicle_make_chassis(const vehicle_rigid_body *of, float chassis[VEHICLE_CHASSIS_LEN]);

/* The ground body that vehicle_drive takes. Hand in 1 as its flag: it is dynamic. One that never gives way has zeros but for its centre of mass
 * and velocities, and the flag 0. Where the rotation is not of unit length, the inverse inertia is NaN, which the drive refuses. */
void vehicle_make_ground(const vehicle_rigid_body *of, float body[VEHICLE_BODY_LEN]);

/* The inertia of a solid box of these sizes along its own axes, in m. */
void vehicle_make_box_inertia(float mass, const float size[3], float inertia[6]);

/* A wheel's place on the chassis, along the chassis' own axes. */
typedef struct {
    float connection[3]; /* m, from the chassis' position: where the suspension is fixed */
    float direction[3];  /* where the suspension points: down. Of any length but zero */
    float axle[3];       /* the axle. Of any length but zero; which way it points decides which way an engine drives */
    float rest_length;   /* m */
    float radius;        /* m */
} vehicle_mount;

/* The settings that vehicle_add_wheel takes, with the Rust source's tuning and roll influence: direction and axle made unit length. Change the
 * tuning from settings + VEHICLE_SETTINGS_TUNING on. */
void vehicle_make_wheel(const vehicle_mount *of, float settings[VEHICLE_SETTINGS_LEN]);
#define VEHICLE_SETTINGS_TUNING 11

/* The time of a hit at this distance, in m, along a ray that vehicle_aim gave: a fraction of the ray. Above 1 it is beyond the ray, no hit. */
float vehicle_make_time(const float ray[3], float distance);

/* ---- A vehicle as bytes. ---- */

/* A name, a version, the sizes of the two arrays, their numbers with the lowest byte first, and a sum over all that. */
#define VEHICLE_SAVED_LEN (20 + 4 * (VEHICLE_TABLE_LEN + VEHICLE_WHOLE_LEN) + 4)
#define VEHICLE_SAVED_VERSION 1

/* Writes the vehicle to `bytes`. */
void vehicle_save(const float table[VEHICLE_TABLE_LEN], const uint32_t whole[VEHICLE_WHOLE_LEN], uint8_t bytes[VEHICLE_SAVED_LEN]);

/* Reads a vehicle from bytes. Gives NULL, or, in words, why they are not a vehicle that this library saved; then nothing is written. */
const char *vehicle_restore(const uint8_t *bytes, size_t bytes_len, float table[VEHICLE_TABLE_LEN], uint32_t whole[VEHICLE_WHOLE_LEN]);

/* How many wheels the vehicle has. */
uint32_t vehicle_wheel_count(const uint32_t whole[VEHICLE_WHOLE_LEN]);

#ifdef __cplusplus
}
#endif

#endif
