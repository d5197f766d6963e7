/* The vehicle controller: six calls on a table that the host lends, one of them in two forms.
 *
 * Link with libvehicle_controller.a (x86-64). It needs memcpy and memset, and nothing else. vehicle_help.h beside it says in words why a call was
 * refused, and makes the lists that the calls take; vehicle.hpp has both for C++.
 *
 * What each number means, its unit, frame and sign: docs/NUMBERS.md. What a step does and exactly when each refusal is given: docs/RULES.md.
 *
 * The host owns two arrays, a table of VEHICLE_TABLE_LEN floats and VEHICLE_WHOLE_LEN whole numbers, and lends both to every call. Nothing
 * is kept anywhere else, so a copy of the two arrays is a copy of the vehicle, and vehicles may be driven on as many threads as there are.
 *
 * The order of calls: vehicle_set_up once; vehicle_add_wheel for each wheel; then for each frame vehicle_set_controls_by_angle or
 * vehicle_set_controls as needed, vehicle_aim, cast the rays it gives, vehicle_drive with what they met, vehicle_read_wheel.
 *
 * Each call answers 0, accepted, or a refusal: one of the numbers VEHICLE_... below. A refusal changes nothing that was lent: not the table,
 * not the whole numbers, not the results. Each call takes every float, NaN and the infinities included, and every content of the two arrays.
 *
 * The processor has to be in its usual floating-point mode: rounding to nearest, tiny numbers kept. A program that is linked with -Ofast or
 * -ffast-math, or sets that mode by itself, has tiny numbers taken for zero, and then the last bits may be others.
 *
 * What the compiler cannot see, and the host owes: a pointer is not null, points to as many numbers as the length after it says, and is not
 * null for a length of 0 either; what a call may write (table, whole, results) overlaps nothing else that the same call is handed.
 */
#ifndef VEHICLE_H
#define VEHICLE_H

#include <stddef.h>
#include <stdint.h>

#ifdef __cplusplus
extern "C" {
#endif

/* ---- Sizes, in numbers. The functions vehicle_..._len, at the end, give the library's own. ---- */

#define VEHICLE_TABLE_LEN 922           /* the table */
#define VEHICLE_WHOLE_LEN 4             /* the whole numbers beside it */
#define VEHICLE_SETTINGS_LEN 19         /* what vehicle_add_wheel takes */
#define VEHICLE_CONTROLS_LEN 6          /* what vehicle_set_controls takes */
#define VEHICLE_CONTROLS_BY_ANGLE_LEN 3 /* what vehicle_set_controls_by_angle takes */
#define VEHICLE_CHASSIS_LEN 26          /* what vehicle_aim takes */
#define VEHICLE_AIM_LEN 97              /* what vehicle_aim gives */
#define VEHICLE_BODY_LEN 16             /* one ground body */
#define VEHICLE_RAY_LEN 7               /* one ray answer */
#define VEHICLE_DRIVE_LEN 7             /* what vehicle_drive gives */
#define VEHICLE_READ_LEN 20             /* what vehicle_read_wheel gives */
#define VEHICLE_READ_SETTLED 15         /* where in it the settled centre begins */
#define VEHICLE_READ_NO_AXIS 18         /* where in it 1 stands if the tyre has no axis on the ground, else 0 */
#define VEHICLE_READ_NO_FORWARD 19      /* where in it 1 stands if the tyre has no rolling direction, else 0 */
#define VEHICLE_MOST_WHEELS 16
#define VEHICLE_MOST_BODIES 64

/* The roll influence that the Rust source gives every wheel: see vehicle_add_wheel. */
#define VEHICLE_ROLL_INFLUENCE 0.1f

/* ---- What a call answers. ---- */

#define VEHICLE_ACCEPTED 0
/* A lent array of the wrong length, or a table and whole numbers that no call of these wrote (count above 16, unknown mark, axis above 2).
 * Lend arrays of the sizes above, and call vehicle_set_up on them first. */
#define VEHICLE_NO_VEHICLE 1
/* A number handed in is NaN, infinite or above 2^20 in magnitude; or a stored one is NaN, infinite or above 2^40 in magnitude.
 * Look for the number that blew up. If it is a stored one, set the vehicle up again. */
#define VEHICLE_BAD_NUMBER 2
/* The vehicle has 16 wheels. */
#define VEHICLE_FULL 3
/* There is no wheel of this number. Wheels are numbered from 0 in the order in which they were added. */
#define VEHICLE_NO_SUCH_WHEEL 4
/* A drive without an aim before it, or a read without a drive before it. Controls that were set, or a wheel that was added, after the aim: aim
 * again, cast again, then drive. A read after an aim: drive first; after a wheel was added: aim and drive first. */
#define VEHICLE_WRONG_MOMENT 5
/* The lists of a drive: not one ray answer for each wheel, over 64 bodies, lists whose lengths do not fit together, a flag that is not 0 or 1,
 * an unknown kind, a time that is NaN or not from 0 to 1, a body that is not in the list. */
#define VEHICLE_BAD_LISTS 6
/* A demand or the grip limit of a tyre on the ground would be NaN or above 2^40: look at masses, stiffness and speeds. */
#define VEHICLE_WILD_GRIP 7
/* The call would store a number or give a velocity that is NaN or above 2^40 in magnitude: look at masses, stiffness, radius and speeds. */
#define VEHICLE_WILD_STEP 8
/* (9 is of the scenario program.) A setting is out of its range: see each call. */
#define VEHICLE_OUT_OF_RANGE 10
/* (11 is not given.) A normal of a drive is not of length one: its sum of squares is not from 1 - 2^-10 to 1 + 2^-10. Normalise the normals
 * that the casts give, that of the upward cast too. Only the normal of a hit at time 0 may be zero, all three parts, for a ray that starts
 * inside a shape. */
#define VEHICLE_BAD_NORMAL 12
/* (13 to 16 are not given.) At an aim: a wheel that is steered by an angle, be it 0, has a suspension direction that the angle cannot turn
 * about. It is zero, or below about 2^-74 long, so that its squares are 0 and it has no unit length; or below about 2^-69, where they are so
 * coarse that the rotation has a sum of squares that is not from 1 - 2^-10 to 1 + 2^-10. Add the wheel with a direction of about length one. */
#define VEHICLE_BAD_TURN 17

/* ---- The calls. ---- */

/* Makes the two arrays a vehicle with no wheels, whatever they hold. The axes are 0 for x, 1 for y, 2 for z; the Rust source has up 1 and
 * forward 0.
 * Refuses: 1, a wrong length or an axis above 2. */
uint32_t vehicle_set_up(float *table, size_t table_len, uint32_t *whole, size_t whole_len, uint32_t up, uint32_t forward);

/* Adds a wheel; its number is the count of those before it. The vehicle must be aimed and driven before a wheel is read again.
 * settings, VEHICLE_SETTINGS_LEN: connection point (3), direction of the suspension (3) and axle (3), relative to the chassis; rest length;
 * radius; suspension stiffness; damping when compressed; damping when released; travel; side friction stiffness; friction slip; greatest
 * suspension force; roll influence.
 * The roll influence, from 0 to 1, is how much the tyre's push sideways leans the chassis: with 1 it acts where the tyre meets the ground,
 * with 0 at the height of the centre of mass, where it leans nothing. VEHICLE_ROLL_INFLUENCE is that of the Rust source. An initialiser of
 * eighteen numbers leaves 0 in its place: write all nineteen.
 * Refuses, the first that holds: 1; 3; 2; 10, a radius not above 0, another of the numbers from the rest length on below 0, or a roll
 * influence above 1. */
uint32_t vehicle_add_wheel(float *table, size_t table_len, uint32_t *whole, size_t whole_len, const float *settings, size_t settings_len);

/* Sets the controls of one wheel, kept until they are set again in either form. A vehicle that was aimed must be aimed again.
 * controls, VEHICLE_CONTROLS_BY_ANGLE_LEN: engine force; brake; steering, an angle in radians from -2 to 2.
 * Each aim turns the axle by the angle about minus the wheel's direction in the world, which that aim works out and makes unit length: the
 * wheel stays steered when the chassis turns, with no new call, and how long the direction is does not matter.
 * Which way is positive: to the left where the suspension points down (in a left-handed scene to the right); docs/NUMBERS.md has an example in
 * numbers.
 * Refuses, the first that holds: 1; 4; 2; 10, a brake below 0, or an angle not from -2 to 2. A direction that an angle cannot turn about is
 * refused at the aim: VEHICLE_BAD_TURN. */
uint32_t vehicle_set_controls_by_angle(float *table, size_t table_len, uint32_t *whole, size_t whole_len, uint32_t wheel, const float *controls, size_t controls_len);

/* The same with a rotation in place of the angle.
 * controls, VEHICLE_CONTROLS_LEN: engine force; brake; steering, a rotation in world space (x, y, z, w). It stays as it is when the chassis
 * turns: set it again before the aim.
 * Refuses, the first that holds: 1; 4; 2; 10, a brake below 0, or a steering whose sum of squares is not from 1 - 2^-10 to 1 + 2^-10. */
uint32_t vehicle_set_controls(float *table, size_t table_len, uint32_t *whole, size_t whole_len, uint32_t wheel, const float *controls, size_t controls_len);

/* Takes the chassis, keeps it, and gives the rays that the host is to cast.
 * chassis, VEHICLE_CHASSIS_LEN: translation (3); rotation (x, y, z, w); centre of mass (3); linear velocity (3); angular velocity (3); inverse
 * mass; effective inverse masses (3); inverse inertia in world space (xx, xy, xz, yy, yz, zz).
 * results, VEHICLE_AIM_LEN: the signed speed; then for each of 16 wheels where its ray starts (3) and the ray (3), zeros for a wheel that is
 * not there. The ray ends at time 1.
 * Refuses, the first that holds: 1; 2; 10, an inverse mass not from 2^-20 to 2^20, a rotation whose sum of squares is not from 1 - 2^-10 to
 * 1 + 2^-10, or a stored setting or steering out of its range; 17, a wheel steered by an angle whose direction it cannot turn about; 8. */
uint32_t vehicle_aim(float *table, size_t table_len, uint32_t *whole, size_t whole_len, const float *chassis, size_t chassis_len, float *results, size_t results_len);

/* Drives an aimed vehicle by one step on the chassis that the aim kept.
 * dt: the time step, from 0 to 1.
 * bodies, VEHICLE_BODY_LEN for each ground body, at most 64: centre of mass (3); linear velocity (3); angular velocity (3); inverse mass;
 * inverse inertia (xx, xy, xz, yy, yz, zz). dynamic, one for each body: 1 if it is dynamic, else 0.
 * kinds, one for each wheel: VEHICLE_NOTHING, VEHICLE_HIT, or VEHICLE_HIT_UP.
 * named, one for each wheel: 0 if the hit names no body, or n for body n - 1 of the list.
 * rays, VEHICLE_RAY_LEN for each wheel: time of the hit, from 0 to 1; its normal (3); the normal of the upward cast (3). A normal has length
 * one; that of a hit at time 0 may be zero, the upward one never. What a kind does not have is not looked at.
 * results, VEHICLE_DRIVE_LEN: the chassis' new linear velocity (3) and angular velocity (3); 1 if the chassis is to be woken, else 0.
 * Refuses, the first that holds: 1; 5; 6; 2; 12; 10, a dt not from 0 to 1, a body whose inverse mass is below 0, or a stored setting, steering
 * or kept chassis out of its range; 7; 8. */
uint32_t vehicle_drive(float *table, size_t table_len, uint32_t *whole, size_t whole_len, float dt, const float *bodies, size_t bodies_len, const uint32_t *dynamic, size_t dynamic_len, const uint32_t *kinds, size_t kinds_len, const uint32_t *named, size_t named_len, const float *rays, size_t rays_len, float *results, size_t results_len);

#define VEHICLE_NOTHING 0 /* the ray met nothing */
#define VEHICLE_HIT 1     /* a hit with its time and normal */
#define VEHICLE_HIT_UP 2  /* a hit that also has the normal of the upward cast */

/* Reads one wheel of a vehicle that was driven. It changes nothing but the results.
 * results, VEHICLE_READ_LEN: centre (3); direction (3) and axle (3) in the world; suspension length; suspension force; forward impulse; side
 * impulse; skid, below 1 if the tyre slides; rotation; settled centre (3); no axis; no forward direction.
 * Draw the tyre at the settled centre, results + VEHICLE_READ_SETTLED: the hard point plus the direction times the length that this drive
 * gave. The first centre is the Rust source's, which has the length of the drive before: drawn, it is a frame late. It is there to be
 * compared with the source's numbers. The settled one is always finite, and has no other bound.
 * No axis and no forward direction are 1 or 0, both 0 for a wheel in the air, and say why a tyre on the ground is dead.
 * No axis is 1 where the axle has no direction on the ground: it lies along the ground's normal, or is too short (below about 2^-75, so that
 * its square is 0), or, in a table that no call wrote, too long. The tyre then has neither a side nor a rolling direction, and with no
 * engine force both its impulses are 0.
 * No forward direction is 1 where the tyre has no rolling direction. It never has one without an axis. It alone is 1 where what is left of
 * the axle points along the normal, since that is not exactly of length one, or where the normal is zero: a hit at time 0 with a zero
 * normal, of a wheel whose suspension has a zero direction. The tyre does not roll or brake, but may still hold to the side.
 * An engine force gives a forward impulse all the same, but it pushes nothing, since its direction is zero.
 * Refuses, the first that holds: 1; 4; 5; 2. */
uint32_t vehicle_read_wheel(const float *table, size_t table_len, const uint32_t *whole, size_t whole_len, uint32_t wheel, float *results, size_t results_len);

/* The square root of x, correctly rounded. A NaN, and a number below zero, give a NaN. */
float vehicle_root(float x);

/* The sine and the cosine of half a steering angle, a number from -1 to 1: each within 2^-20 of its Taylor sum through the twelfth power. A
 * rotation by the angle about an axis of unit length is (axis times sine, cosine). Any other number is half of no steering angle: it gives
 * itself and 1. */
float vehicle_sine(float half_angle);
float vehicle_cosine(float half_angle);

/* The sizes above, as the library has them. */
uint32_t vehicle_table_len(void);
uint32_t vehicle_whole_len(void);
uint32_t vehicle_settings_len(void);
uint32_t vehicle_controls_len(void);
uint32_t vehicle_controls_by_angle_len(void);
uint32_t vehicle_chassis_len(void);
uint32_t vehicle_body_len(void);
uint32_t vehicle_ray_len(void);
uint32_t vehicle_aim_len(void);
uint32_t vehicle_drive_len(void);
uint32_t vehicle_read_len(void);

#ifdef __cplusplus
}
#endif

#endif
