/* A vehicle as bytes: what it is, a version, the sizes, the numbers with the lowest byte first, and a sum over all before it. */
#include <string.h>

#include "fields.h"

static const uint8_t what[8] = {'v', 'e', 'h', 'i', 'c', 'l', 'e', 0};

static uint8_t *put(uint8_t *to, uint32_t number)
{
    for (int byte = 0; byte < 4; byte++)
        *to++ = (uint8_t)(number >> (8 * byte));
    return to;
}

static uint32_t get(const uint8_t *from)
{
    return from[0] | (uint32_t)from[1] << 8 | (uint32_t)from[2] << 16 | (uint32_t)from[3] << 24;
}

/* CRC-32, as zip files have it. */
static uint32_t sum_of(const uint8_t *bytes, size_t len)
{
    uint32_t sum = 0xffffffff;
    for (size_t place = 0; place < len; place++) {
        sum ^= bytes[place];
        for (int bit = 0; bit < 8; bit++)
            sum = sum >> 1 ^ (sum & 1 ? 0xedb88320 : 0);
    }
    return ~sum;
}

void vehicle_save(const float table[VEHICLE_TABLE_LEN], const uint32_t whole[VEHICLE_WHOLE_LEN], uint8_t bytes[VEHICLE_SAVED_LEN])
{
    uint8_t *to = bytes + sizeof what;
    uint32_t bits;
    memcpy(bytes, what, sizeof what);
    to = put(put(put(to, VEHICLE_SAVED_VERSION), VEHICLE_TABLE_LEN), VEHICLE_WHOLE_LEN);
    for (size_t place = 0; place < VEHICLE_TABLE_LEN; place++) {
        memcpy(&bits, &table[place], sizeof bits);
        to = put(to, bits);
    }
    for (size_t place = 0; place < VEHICLE_WHOLE_LEN; place++)
        to = put(to, whole[place]);
    put(to, sum_of(bytes, (size_t)(to - bytes)));
}

/* Where the version, the sizes and the numbers begin. */
enum { VERSION_AT = sizeof what, SIZES_AT = VERSION_AT + 4, NUMBERS_AT = SIZES_AT + 8, WHOLE_AT = NUMBERS_AT + 4 * VEHICLE_TABLE_LEN };

/* Why the bytes are not a vehicle of this version and size, whole and undamaged. */
static const char *why_not(const uint8_t *bytes, size_t len)
{
    if (len < NUMBERS_AT || memcmp(bytes, what, sizeof what) != 0)
        return "these bytes are not a saved vehicle";
    if (get(bytes + VERSION_AT) != VEHICLE_SAVED_VERSION)
        return "this vehicle was saved in a version that this library does not read: set it up anew";
    if (get(bytes + SIZES_AT) != VEHICLE_TABLE_LEN || get(bytes + SIZES_AT + 4) != VEHICLE_WHOLE_LEN)
        return "this vehicle was saved by a library with a table of another size: set it up anew";
    if (len != VEHICLE_SAVED_LEN)
        return "these bytes are a saved vehicle cut short, or with something behind it";
    if (get(bytes + len - 4) != sum_of(bytes, len - 4))
        return "these bytes are a saved vehicle in which something has changed since";
    return NULL;
}

const char *vehicle_restore(const uint8_t *bytes, size_t bytes_len, float table[VEHICLE_TABLE_LEN], uint32_t whole[VEHICLE_WHOLE_LEN])
{
    uint32_t kept[VEHICLE_WHOLE_LEN];
    const char *why = why_not(bytes, bytes_len);
    if (why)
        return why;
    for (size_t place = 0; place < VEHICLE_WHOLE_LEN; place++)
        kept[place] = get(bytes + WHOLE_AT + 4 * place);
    if (kept[COUNT] > VEHICLE_MOST_WHEELS || kept[MARK] > DRIVEN || kept[UP] > 2 || kept[FORWARD] > 2)
        return "what was saved was no vehicle: it had not been set up";
    for (size_t place = 0; place < VEHICLE_TABLE_LEN; place++) {
        uint32_t bits = get(bytes + NUMBERS_AT + 4 * place);
        memcpy(&table[place], &bits, sizeof bits);
    }
    memcpy(whole, kept, sizeof kept);
    return NULL;
}

uint32_t vehicle_wheel_count(const uint32_t whole[VEHICLE_WHOLE_LEN])
{
    return whole[COUNT];
}
