/* How a finding is made. */
#ifndef VEHICLE_FINDING_H
#define VEHICLE_FINDING_H

#include "vehicle_help.h"

/* The archive's own names, so that none is a host's. */
#define nothing_found vehicle_help_nothing_found
#define found vehicle_help_found
#define of_wheel vehicle_help_of_wheel
#define of_body vehicle_help_of_body

/* Nothing found. */
vehicle_finding nothing_found(uint32_t refusal);

/* A number with what holds for it and what to do. The bound may name one whole number, as printf does by %llu. */
vehicle_finding found(const char *field, double value, const char *bound, unsigned long long number, const char *advice);

/* The same finding, of a wheel or of a ground body. */
vehicle_finding of_wheel(vehicle_finding finding, uint32_t wheel);
vehicle_finding of_body(vehicle_finding finding, size_t body);

#endif
