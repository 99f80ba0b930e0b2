/*
 * Blocks of Q4_0 that came without word of their order, and their values, which are known from
 * elsewhere.
 *
 * Nothing in the bytes says whether neighbours share a byte, or values that are 16 places apart. So
 * the blocks are decoded both ways and held to the known values, and then brought to the order that
 * the logger works with.
 *
 *     tools/deliver
 *     cc -std=c99 -I target/deliver/$(uname -m) -o two_orders examples/two_orders.c target/deliver/$(uname -m)/libjambharrow.a
 */
#include <inttypes.h>
#include <stdio.h>

#include "jambharrow.h"

#define BLOCKS 4
#define VALUES (BLOCKS * JAMBHARROW_Q4_0_BLOCK_VALUES)
#define BYTES JAMBHARROW_ROW_BYTES(Q4_0, VALUES)

/* Weights with no pattern, from -1 to 1, for want of a model. */
static void make_up(float weights[VALUES])
{
    for (uint32_t i = 0; i < VALUES; i++) {
        weights[i] = (float)((i * UINT32_C(0x9E3779B9)) >> 24) / 128.0f - 1.0f;
    }
}

/* How far values are from the known ones, on average. */
static double distance(const float values[VALUES], const float known[VALUES])
{
    double sum = 0.0;
    for (int i = 0; i < VALUES; i++) {
        double apart = (double)values[i] - (double)known[i];
        sum += apart < 0.0 ? -apart : apart;
    }
    return sum / VALUES;
}

/* How far the blocks are from the known values: apart[0] by pairs, apart[1] by GGML's order. */
static uint32_t both_ways(const uint8_t bytes[BYTES], const float known[VALUES], double apart[2])
{
    float values[VALUES];
    uint32_t no = jambharrow_dequantize_q4_0(bytes, BYTES, values, VALUES);
    if (no != JAMBHARROW_DONE) {
        return no;
    }
    apart[0] = distance(values, known);
    no = jambharrow_dequantize_q4_0_ggml(bytes, BYTES, values, VALUES);
    if (no != JAMBHARROW_DONE) {
        return no;
    }
    apart[1] = distance(values, known);
    return JAMBHARROW_DONE;
}

/* The order of blocks that are so far from the known values. */
static const char *order_of(const double apart[2])
{
    if (apart[0] < apart[1]) {
        return "neighbours share a byte";
    }
    if (apart[1] < apart[0]) {
        return "GGML's order";
    }
    return "these values do not tell";
}

/* Says how far some blocks are from the known values by each order, and which order they have. */
static uint32_t show(const char *name, const uint8_t bytes[BYTES], const float known[VALUES])
{
    double apart[2];
    uint32_t no = both_ways(bytes, known, apart);
    if (no == JAMBHARROW_DONE) {
        printf("%s: %.3f apart by pairs, %.3f by GGML's order: %s\n", name, apart[0], apart[1],
               order_of(apart));
    }
    return no;
}

static int refused(const char *call, uint32_t no)
{
    printf("%s refused %" PRIu32 ": %s\n", call, no, jambharrow_refusal_words(no));
    return 1;
}

int main(void)
{
    float known[VALUES];
    uint8_t received[BYTES], converted[BYTES];
    jambharrow_size lost[2];
    uint32_t no;

    make_up(known);
    no = jambharrow_quantize_q4_0_ggml(known, VALUES, received, BYTES, lost);
    if (no != JAMBHARROW_DONE) {
        return refused("quantize_q4_0_ggml", no);
    }
    no = show("received", received, known);
    if (no != JAMBHARROW_DONE) {
        return refused("a decoder", no);
    }
    no = jambharrow_q4_0_from_ggml(received, BYTES, converted, BYTES);
    if (no != JAMBHARROW_DONE) {
        return refused("q4_0_from_ggml", no);
    }
    no = show("converted", converted, known);
    return no == JAMBHARROW_DONE ? 0 : refused("a decoder", no);
}
