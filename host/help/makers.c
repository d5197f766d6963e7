/* The lists of vehicle.h from what a host has, in double precision, each operation rounded once: compile with -ffp-contract=off. */
#include <math.h>
#include <string.h>

#include "fields.h"

typedef double matrix[3][3];

/* The rotation as a matrix: its columns are where the body's own axes point in the world. */
static void matrix_of(const float q[4], matrix m)
{
    double x = q[0], y = q[1], z = q[2], w = q[3];
    m[0][0] = 1 - 2 * (y * y + z * z);
    m[0][1] = 2 * (x * y - z * w);
    m[0][2] = 2 * (x * z + y * w);
    m[1][0] = 2 * (x * y + z * w);
    m[1][1] = 1 - 2 * (x * x + z * z);
    m[1][2] = 2 * (y * z - x * w);
    m[2][0] = 2 * (x * z - y * w);
    m[2][1] = 2 * (y * z + x * w);
    m[2][2] = 1 - 2 * (x * x + y * y);
}

/* The inverse of a symmetric array, by its cofactors. */
static void inverse_of(const float i[6], matrix inverse)
{
    double xx = i[0], xy = i[1], xz = i[2], yy = i[3], yz = i[4], zz = i[5];
    double cxx = yy * zz - yz * yz, cxy = xz * yz - xy * zz, cxz = xy * yz - xz * yy;
    double scale = 1 / (xx * cxx + xy * cxy + xz * cxz);
    inverse[0][0] = cxx * scale;
    inverse[0][1] = inverse[1][0] = cxy * scale;
    inverse[0][2] = inverse[2][0] = cxz * scale;
    inverse[1][1] = (xx * zz - xz * xz) * scale;
    inverse[1][2] = inverse[2][1] = (xy * xz - xx * yz) * scale;
    inverse[2][2] = (xx * yy - xy * xy) * scale;
}

/* One number of R M R^T. */
static double turned(matrix r, matrix m, int row, int column)
{
    double sum = 0;
    for (int i = 0; i < 3; i++)
        for (int j = 0; j < 3; j++)
            sum += r[row][i] * m[i][j] * r[column][j];
    return sum;
}

/* What a chassis and a ground body share: centre of mass, both velocities, inverse mass; and the inverse inertia, in world space. */
static void motion(const vehicle_rigid_body *of, float numbers[BODY_INERTIA], float inertia[6])
{
    static const int rows[6] = {0, 0, 0, 1, 1, 2}, columns[6] = {0, 1, 2, 1, 2, 2};
    const float *local = of->local_centre_of_mass;
    matrix r, inverse;
    matrix_of(of->rotation, r);
    inverse_of(of->local_inertia, inverse);
    for (int i = 0; i < 3; i++)
        numbers[BODY_CENTRE + i] = (float)(of->position[i] + (r[i][0] * local[0] + r[i][1] * local[1] + r[i][2] * local[2]));
    memcpy(numbers + BODY_LINVEL, of->linear_velocity, sizeof of->linear_velocity);
    memcpy(numbers + BODY_ANGVEL, of->angular_velocity, sizeof of->angular_velocity);
    numbers[BODY_INVMASS] = (float)(1.0 / of->mass);
    for (int i = 0; i < 6; i++)
        inertia[i] = (float)turned(r, inverse, rows[i], columns[i]);
}

void vehicle_make_chassis(const vehicle_rigid_body *of, float chassis[VEHICLE_CHASSIS_LEN])
{
    memcpy(chassis + TRANSLATION, of->position, sizeof of->position);
    memcpy(chassis + ORIENTATION, of->rotation, sizeof of->rotation);
    motion(of, chassis + MASS_CENTRE, chassis + INERTIA);
    for (int axis = 0; axis < 3; axis++)
        chassis[EFFECTIVE + axis] = of->locked[axis] ? 0 : chassis[INVMASS];
}

/* A chassis hands its rotation on, and an aim tests it; a ground body has none, so what it turned is no number where it was not of unit length. */
void vehicle_make_ground(const vehicle_rigid_body *of, float body[VEHICLE_BODY_LEN])
{
    const float *q = of->rotation;
    float squared = ((q[0] * q[0] + q[1] * q[1]) + q[2] * q[2]) + q[3] * q[3];
    motion(of, body, body + BODY_INERTIA);
    if (!(squared >= BAND_LOW && squared <= BAND_HIGH))
        body[BODY_INERTIA] = NAN;
}

void vehicle_make_box_inertia(float mass, const float size[3], float inertia[6])
{
    double x = (double)size[0] * size[0], y = (double)size[1] * size[1], z = (double)size[2] * size[2], twelfth = mass / 12.0;
    memset(inertia, 0, 6 * sizeof *inertia);
    inertia[0] = (float)(twelfth * (y + z));
    inertia[3] = (float)(twelfth * (x + z));
    inertia[5] = (float)(twelfth * (x + y));
}

/* The length of a vector: its largest part, times a root from 1 to 3 by Newton's steps, so that no square overflows and no library's root is
 * asked. */
static double length(const float v[3])
{
    double largest = 0, sum = 0, root = 1;
    for (int i = 0; i < 3; i++)
        largest = fabs(v[i]) > largest ? fabs(v[i]) : largest;
    for (int i = 0; largest > 0 && i < 3; i++)
        sum += v[i] / largest * (v[i] / largest);
    for (int step = 0; largest > 0 && step < 8; step++)
        root = 0.5 * (root + sum / root);
    return largest * root;
}

/* A vector of any length but zero made unit length; zero stays zero. */
static void unit(const float from[3], float to[3])
{
    double size = length(from);
    for (int i = 0; i < 3; i++)
        to[i] = size > 0 ? (float)(from[i] / size) : from[i];
}

float vehicle_make_time(const float ray[3], float distance)
{
    return (float)(distance / length(ray));
}

void vehicle_make_wheel(const vehicle_mount *of, float settings[VEHICLE_SETTINGS_LEN])
{
    static const float tuning[] = {5.88f, 0.83f, 0.88f, 5.0f, 1.0f, 10.5f, 6000.0f, VEHICLE_ROLL_INFLUENCE};
    memcpy(settings + CONNECTION, of->connection, sizeof of->connection);
    unit(of->direction, settings + DIRECTION);
    unit(of->axle, settings + AXLE);
    settings[REST] = of->rest_length;
    settings[RADIUS] = of->radius;
    memcpy(settings + VEHICLE_SETTINGS_TUNING, tuning, sizeof tuning);
}
