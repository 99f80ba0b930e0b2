/*
 * A layer of 2,048 readings and 16 outputs, in Q4_K, worked across wake slots.
 *
 * The logger wakes, works a few pieces, and sleeps again. Between two wakes only `storage` stays.
 * At the last wake the rows are closed, and each output's bits are printed, as `fillin` prints
 * them. At the end each output is held against the row's dot in one go.
 *
 *     tools/deliver
 *     cc -std=c99 -I target/deliver/$(uname -m) -o wake_slots examples/wake_slots.c target/deliver/$(uname -m)/libjambharrow.a
 */
#include <inttypes.h>
#include <stddef.h>
#include <stdio.h>
#include <string.h>

#include "jambharrow.h"

#define IN_FEAT 2048
#define OUT_FEAT 16
#define ROW_BYTES JAMBHARROW_ROW_BYTES(Q4_K, IN_FEAT)
#define PIECES JAMBHARROW_PIECES(IN_FEAT, OUT_FEAT)
/* How many pieces a wake slot has time for. */
#define BUDGET 5

/* What a call leaves behind for the next. */
struct kept {
    float slots[PIECES];
    uint8_t marks[PIECES];
};

/* Memory that keeps its content through a sleep. */
static struct kept storage;

/* The weights, as they stand in flash memory, and the window that is answered: the same at every
 * wake until the rows are closed. */
static uint8_t weights[JAMBHARROW_LAYER_BYTES(Q4_K, IN_FEAT, OUT_FEAT)];
static float readings[IN_FEAT];

/* Numbers with no pattern, for want of a logger. */
static void make_up(void)
{
    for (uint32_t i = 0; i < sizeof weights; i++) {
        weights[i] = (uint8_t)((i * UINT32_C(0x9E3779B9)) >> 24);
    }
    /* d and dmin of each block, near 2^-7. */
    for (size_t block = 0; block < sizeof weights; block += JAMBHARROW_Q4_K_BLOCK_BYTES) {
        weights[block + 1] = 0x20;
        weights[block + 3] = 0x20;
    }
    for (uint32_t i = 0; i < IN_FEAT; i++) {
        readings[i] = (float)((i * UINT32_C(0x9E3779B9)) >> 24) / 64.0f;
    }
}

/* Before the first wake: no piece is done. */
static uint32_t begin(void)
{
    struct kept now;
    uint32_t no = jambharrow_open(JAMBHARROW_Q4_K, IN_FEAT, OUT_FEAT,
                                  now.slots, PIECES, now.marks, PIECES);
    if (no == JAMBHARROW_DONE) {
        storage = now;
    }
    return no;
}

/* One wake slot: at most BUDGET pieces. `blocks` tells how short the weights are, where they are. */
static uint32_t wake(jambharrow_size *done, jambharrow_size *left, jambharrow_size blocks[2])
{
    struct kept now = storage;
    uint32_t no = jambharrow_run(JAMBHARROW_Q4_K, IN_FEAT, OUT_FEAT,
                                 weights, sizeof weights, readings, IN_FEAT, BUDGET,
                                 now.slots, PIECES, now.marks, PIECES, done, left, blocks);
    if (no == JAMBHARROW_DONE) {
        storage = now;
    }
    return no;
}

/* Once no piece is open: every row's output. */
static uint32_t finish(float y[OUT_FEAT])
{
    for (size_t row = 0; row < OUT_FEAT; row++) {
        uint32_t no = jambharrow_close(JAMBHARROW_Q4_K, IN_FEAT, OUT_FEAT, row,
                                       storage.slots, PIECES, storage.marks, PIECES,
                                       y, OUT_FEAT);
        if (no != JAMBHARROW_DONE) {
            return no;
        }
    }
    return JAMBHARROW_DONE;
}

static uint32_t bits_of(float value)
{
    uint32_t bits;
    memcpy(&bits, &value, sizeof bits);
    return bits;
}

/* How many outputs have the bits of their row's dot in one go. */
static size_t same_in_one_go(const float y[OUT_FEAT])
{
    size_t same = 0;
    for (size_t row = 0; row < OUT_FEAT; row++) {
        float value;
        jambharrow_size blocks[2];
        uint32_t no = jambharrow_canonical_dot_q4k_fused(readings, IN_FEAT,
                                                         weights + row * ROW_BYTES, ROW_BYTES,
                                                         IN_FEAT, &value, blocks);
        if (no == JAMBHARROW_DONE && bits_of(value) == bits_of(y[row])) {
            same++;
        }
    }
    return same;
}

static int refused(const char *call, uint32_t no)
{
    printf("%s refused %" PRIu32 ": %s\n", call, no, jambharrow_refusal_words(no));
    return 1;
}

/* Short weights are told by their two counts, which say what to look for. */
static int refused_run(uint32_t no, const jambharrow_size blocks[2])
{
    if (no != JAMBHARROW_WEIGHTS_SHORT) {
        return refused("run", no);
    }
    printf("run refused %" PRIu32 ": found %lu whole blocks of weights, needed %lu\n",
           no, (unsigned long)blocks[0], (unsigned long)blocks[1]);
    return 1;
}

int main(void)
{
    float y[OUT_FEAT];
    jambharrow_size done = 0;
    jambharrow_size left = PIECES;
    jambharrow_size blocks[2];
    uint32_t no;

    if (jambharrow_version() != JAMBHARROW_VERSION) {
        puts("the library is not the header's");
        return 1;
    }
    make_up();
    no = begin();
    if (no != JAMBHARROW_DONE) {
        return refused("open", no);
    }
    for (unsigned slot = 1; left > 0; slot++) {
        no = wake(&done, &left, blocks);
        if (no != JAMBHARROW_DONE) {
            return refused_run(no, blocks);
        }
        printf("wake %u: %lu done, %lu left\n",
               slot, (unsigned long)done, (unsigned long)left);
    }
    no = finish(y);
    if (no != JAMBHARROW_DONE) {
        return refused("close", no);
    }
    for (size_t row = 0; row < OUT_FEAT; row++) {
        printf("output %lu: %08" PRIX32 "\n", (unsigned long)row, bits_of(y[row]));
    }
    printf("in one go: %lu of %d the same\n", (unsigned long)same_in_one_go(y), OUT_FEAT);
    return 0;
}
