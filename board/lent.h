/*
 * The calls on memory that is lent to them. tools/on-board makes calls.h of include/jambharrow.h: of
 * each parameter a variable of its name, which a slice has as a `union room`, and of each call `f` a
 * function call_f, which hands it these. So a program here names what it lends, and no list of
 * parameters.
 */
#include <inttypes.h>
#include <stdio.h>
#include <string.h>

#include "jambharrow.h"

/* What a slice is lent: FLOATS floats, or as many bytes as these have. */
union room {
    float floats[FLOATS];
    uint8_t bytes[4 * FLOATS];
};

/* What stands in each float, and each byte, of an output before a call. */
#define STOOD_FLOAT -1.5f
#define STOOD_BYTE 0xEE

#include "calls.h"

static uint32_t bits_of(float value)
{
    uint32_t bits;
    memcpy(&bits, &value, sizeof bits);
    return bits;
}

static float of_bits(uint32_t bits)
{
    float value;
    memcpy(&value, &bits, sizeof value);
    return value;
}

static inline int is_nan(uint32_t bits)
{
    return (bits & 0x7FFFFFFF) > 0x7F800000;
}
