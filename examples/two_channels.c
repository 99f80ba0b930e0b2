/*
 * A transducer with two channels, whose readings come one by one in turn, and a row of Q4_K weights
 * that was made for readings in that order.
 *
 * The channels are put together inside each sub-block of 32 places: channel A in places 0 to 15,
 * channel B in places 16 to 31. The weights' nibbles are moved alike, once. The integer dot answers
 * the same bits; the fused dot, which adds floats in the order of their places, need not.
 *
 *     cc -std=c99 -I target/deliver/$(uname -m) -o two_channels examples/two_channels.c target/deliver/$(uname -m)/libjambharrow.a
 */
#include <inttypes.h>
#include <stdio.h>
#include <string.h>

#include "jambharrow.h"

/* A row of two blocks; a block has 256 places, and its nibbles from byte 16 on. */
#define PLACES 512
#define BLOCK JAMBHARROW_Q4_K_BLOCK_BYTES
#define BYTES JAMBHARROW_ROW_BYTES(Q4_K, PLACES)

/* The place from which a place is filled, of the same 32. */
static int from(int place)
{
    int start = place / 32 * 32;
    int within = place % 32;
    return start + (within < 16 ? 2 * within : 2 * (within - 16) + 1);
}

/* The nibble at a place of a row. */
static uint8_t nibble_at(const uint8_t weights[BYTES], int place)
{
    const uint8_t *nibbles = weights + place / 256 * BLOCK + 16;
    uint8_t byte = nibbles[place % 256 / 64 * 32 + place % 32];
    return place / 32 % 2 == 0 ? byte % 16 : byte / 16;
}

/* The weights with their nibbles moved; scales and minimums stay. */
static void move_weights(const uint8_t weights[BYTES], uint8_t moved[BYTES])
{
    memcpy(moved, weights, BYTES);
    for (int place = 0; place < PLACES; place++) {
        uint8_t *nibbles = moved + place / 256 * BLOCK + 16;
        uint8_t *byte = &nibbles[place % 256 / 64 * 32 + place % 32];
        uint8_t nibble = nibble_at(weights, from(place));
        *byte = place / 32 % 2 == 0 ? *byte / 16 * 16 + nibble : *byte % 16 + nibble * 16;
    }
}

/* The readings in the new order; a logger may as well store them there as they come. */
static void move_readings(const float readings[PLACES], float moved[PLACES])
{
    for (int place = 0; place < PLACES; place++) {
        moved[place] = readings[from(place)];
    }
}

/* Weights and readings with no pattern, for want of a model: scales of 2^-7 and 2^-8. */
static void make_up(uint8_t weights[BYTES], float readings[PLACES])
{
    for (uint32_t i = 0; i < BYTES; i++) {
        weights[i] = (uint8_t)((i * UINT32_C(0x9E3779B9)) >> 24);
    }
    for (int block = 0; block < BYTES; block += BLOCK) {
        memcpy(weights + block, "\x00\x20\x00\x1C", 4);
    }
    for (uint32_t i = 0; i < PLACES; i++) {
        readings[i] = (float)((i * UINT32_C(0x85EBCA6B)) >> 8) / 4194304.0f - 2.0f;
    }
}

static uint32_t bits(float value)
{
    uint32_t bits;
    memcpy(&bits, &value, sizeof bits);
    return bits;
}

/* A row, as the readings come or with its channels put together. */
struct row {
    uint8_t weights[BYTES];
    float readings[PLACES];
};

typedef uint32_t row_dot(const float *x, jambharrow_size x_len, const uint8_t *w,
                         jambharrow_size w_len, jambharrow_size n, float *value,
                         jambharrow_size blocks[2]);

/* Prints a dot's bits of both rows. */
static uint32_t show(const char *name, row_dot *dot, const struct row rows[2])
{
    float values[2];
    jambharrow_size blocks[2];
    for (int i = 0; i < 2; i++) {
        const struct row *row = &rows[i];
        uint32_t no = dot(row->readings, PLACES, row->weights, BYTES, PLACES, &values[i], blocks);
        if (no != JAMBHARROW_DONE) {
            printf("%s refused %" PRIu32 ": %s\n", name, no, jambharrow_refusal_words(no));
            return no;
        }
    }
    printf("%s: %08" PRIX32 " as they come, %08" PRIX32 " put together\n", name, bits(values[0]),
           bits(values[1]));
    return JAMBHARROW_DONE;
}

int main(void)
{
    static struct row rows[2];
    uint32_t no;

    make_up(rows[0].weights, rows[0].readings);
    move_weights(rows[0].weights, rows[1].weights);
    move_readings(rows[0].readings, rows[1].readings);
    no = show("integer dot", jambharrow_integer_dot_q4k, rows);
    if (no == JAMBHARROW_DONE) {
        no = show("fused dot", jambharrow_canonical_dot_q4k_fused, rows);
    }
    return no == JAMBHARROW_DONE ? 0 : 1;
}
