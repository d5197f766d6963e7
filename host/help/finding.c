/* A finding, and its words. */
#include "finding.h"

#include <math.h>
#include <stdio.h>
#include <stdlib.h>
#include <string.h>

vehicle_finding nothing_found(uint32_t refusal)
{
    vehicle_finding none = {refusal, VEHICLE_NONE, VEHICLE_NONE, NULL, 0, "", ""};
    return none;
}

vehicle_finding found(const char *field, double value, const char *bound, unsigned long long number, const char *advice)
{
    vehicle_finding finding = nothing_found(0);
    finding.field = field;
    finding.value = value;
    finding.advice = advice;
    snprintf(finding.bound, sizeof finding.bound, bound, number);
    return finding;
}

vehicle_finding of_wheel(vehicle_finding finding, uint32_t wheel)
{
    finding.wheel = (int32_t)wheel;
    return finding;
}

vehicle_finding of_body(vehicle_finding finding, size_t body)
{
    finding.body = (int32_t)body;
    return finding;
}

/* The number with as few digits as tell it from every other of its precision. */
static void put_number(double value, char text[32])
{
    int digits = 6;
    char *comma;
    if (isnan(value)) {
        strcpy(text, "NaN");
    } else if (isinf(value)) {
        strcpy(text, value < 0 ? "-infinity" : "infinity");
    } else if (fabs(value) < 1e15 && value == (double)(long long)value) {
        snprintf(text, 32, "%.0f", value);
    } else {
        do
            snprintf(text, 32, "%.*g", digits, value);
        while (strtof(text, NULL) != (float)value && ++digits <= 9);
        comma = strchr(text, ',');
        if (comma) /* a host's locale may write one */
            *comma = '.';
    }
}

size_t vehicle_words(const vehicle_finding *finding, char *text, size_t text_len)
{
    char value[32], where[32] = "";
    if (!finding->field)
        return (size_t)snprintf(text, text_len, "nothing in these arguments explains this answer.");
    if (finding->wheel >= 0)
        snprintf(where, sizeof where, "wheel %ld: ", (long)finding->wheel);
    if (finding->body >= 0)
        snprintf(where, sizeof where, "ground body %ld: ", (long)finding->body);
    put_number(finding->value, value);
    return (size_t)snprintf(text, text_len, "%s%s %s, %s. %s", where, finding->field, value, finding->bound, finding->advice);
}
