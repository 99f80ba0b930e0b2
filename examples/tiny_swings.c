/*
 * A window of 256 readings, packed as Q8_0 blocks: first a main at night, then a burst.
 *
 * The swings of the night are so small that binary16 has no scale for them: their blocks would
 * decode to zeros. The quantizer says so, and the window is packed again in a finer unit, which is
 * kept beside the bytes.
 *
 *     tools/deliver
 *     cc -std=c99 -I target/deliver/$(uname -m) -o tiny_swings examples/tiny_swings.c target/deliver/$(uname -m)/libjambharrow.a
 */
#include <inttypes.h>
#include <stdio.h>

#include "jambharrow.h"

#define READINGS 256
#define BLOCKS (READINGS / JAMBHARROW_Q8_0_BLOCK_VALUES)
#define BYTES JAMBHARROW_ROW_BYTES(Q8_0, READINGS)
/* How many of the finer unit make one: a power of two, so that no digit of a reading is lost. */
#define FINER 1024.0f

/* What is stored of a window: its blocks, and how many of their unit make one of the readings'. */
struct packed {
    float units;
    uint8_t bytes[BYTES];
};

/* Swings with no pattern, in bar, for want of a logger: of 0.004 at night, and of 0.5 behind it. */
static void make_up(float readings[READINGS])
{
    for (uint32_t i = 0; i < READINGS; i++) {
        float swing = i < READINGS / 2 ? 0.004f : 0.5f;
        readings[i] = ((float)((i * UINT32_C(0x9E3779B9)) >> 24) / 128.0f - 1.0f) * swing;
    }
}

/* The readings in a unit of which `units` make one. */
static uint32_t pack_in(const float readings[READINGS], float units, struct packed *packed,
                        jambharrow_size lost[2])
{
    float scaled[READINGS];
    for (int i = 0; i < READINGS; i++) {
        scaled[i] = readings[i] * units;
    }
    packed->units = units;
    return jambharrow_quantize_q8_0(scaled, READINGS, packed->bytes, BYTES, lost);
}

/* The readings in their own unit, or in the finer one where a scale was flushed to zero. */
static uint32_t pack(const float readings[READINGS], struct packed *packed,
                     jambharrow_size lost[2])
{
    uint32_t no = pack_in(readings, 1.0f, packed, lost);
    if (no == JAMBHARROW_DONE && lost[0] > 0) {
        no = pack_in(readings, FINER, packed, lost);
    }
    return no;
}

/* The readings that a packed window stands for. */
static uint32_t unpack(const struct packed *packed, float readings[READINGS])
{
    uint32_t no = jambharrow_dequantize_q8_0(packed->bytes, BYTES, readings, READINGS);
    for (int i = 0; no == JAMBHARROW_DONE && i < READINGS; i++) {
        readings[i] /= packed->units;
    }
    return no;
}

/* The largest magnitude of the first half, which is the night. */
static float largest_at_night(const float readings[READINGS])
{
    float largest = 0.0f;
    for (int i = 0; i < READINGS / 2; i++) {
        float magnitude = readings[i] < 0.0f ? -readings[i] : readings[i];
        largest = magnitude > largest ? magnitude : largest;
    }
    return largest;
}

static int refused(const char *call, uint32_t no)
{
    printf("%s refused %" PRIu32 ": %s\n", call, no, jambharrow_refusal_words(no));
    return 1;
}

/* Shows what was lost of a window, and what is left of its night. */
static int show(const struct packed *packed, const jambharrow_size lost[2])
{
    float readings[READINGS];
    uint32_t no = unpack(packed, readings);
    if (no != JAMBHARROW_DONE) {
        return refused("dequantize_q8_0", no);
    }
    printf("units %g: of %d scales %lu flushed, %lu sent to infinity; largest at night %.5f\n",
           (double)packed->units, BLOCKS, (unsigned long)lost[0], (unsigned long)lost[1],
           (double)largest_at_night(readings));
    return 0;
}

int main(void)
{
    float readings[READINGS];
    struct packed packed;
    jambharrow_size lost[2];
    uint32_t no;

    make_up(readings);
    no = pack_in(readings, 1.0f, &packed, lost);
    if (no != JAMBHARROW_DONE) {
        return refused("quantize_q8_0", no);
    }
    if (show(&packed, lost) != 0) {
        return 1;
    }
    no = pack(readings, &packed, lost);
    if (no != JAMBHARROW_DONE) {
        return refused("quantize_q8_0", no);
    }
    if (lost[0] > 0 || lost[1] > 0) {
        puts("no unit serves: the window is kept as floats");
        return 1;
    }
    return show(&packed, lost);
}
