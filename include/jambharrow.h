/*
 * Jambharrow: the arithmetic of a small quantised network for a pressure logger.
 *
 * The functions are those of the static library libjambharrow.a. Each is proved to meet its contract
 * in the source of the crate `exports`. None takes memory from the heap, keeps anything between
 * calls, or needs to be set up.
 *
 * How a call is written. A call has the name of the function of quant.rs that it answers for,
 * behind `jambharrow_`, and its parameters in that function's order. quant.rs has no stepped layer,
 * whose four calls are jambharrow_open, _piece, _run and _close, and no Q5_K, whose calls are named
 * after those of Q4_K and take the same parameters. Nor has it Q4_0 in GGML's order, whose calls
 * are named after those of Q4_0, with `_ggml`, and take the same parameters, nor converters between
 * the two orders, nor IQ4_NL, whose calls are named after those of Q4_0. A slice is a pointer and,
 * right behind it, how many elements it has. Sizes and counts are jambharrow_size, of 64 bits on
 * every processor.
 *
 * What a pointer is. A slice's pointer may be null where its number of elements is 0; every other
 * pointer is to the one value or the array that its type says, and may not be null. A pointer is
 * aligned as C aligns its type: sizes at 8 bytes, floats and 32-bit numbers at 4, bytes anywhere.
 * Memory that a call writes must not overlap any other that it is given.
 *
 * Byte order. Packed bytes are as they lie in a weight file, with little-endian fields, on every
 * machine. Floats and numbers are the machine's own.
 *
 * Interrupts and threads. A call keeps nothing outside its own stack and what it is lent. So any
 * number of threads may call at once, each with buffers of its own for what is written; a call may be
 * interrupted anywhere, and an interrupt may call too, with buffers of its own, where it saves the
 * floating-point registers. Calls expect the floating-point state in which C starts: rounding to
 * nearest, and subnormals kept.
 *
 * How a call says no. A call that can refuse returns JAMBHARROW_DONE, or the number of the one
 * reason of enum jambharrow_refusal for which it refused. A refusal leaves all lent memory but
 * `blocks` as it found it. A value that such a call works out goes through a pointer, which is
 * written only where JAMBHARROW_DONE is returned. A call that returns its value itself never
 * refuses.
 *
 * How short weights are. A call whose last parameter is `blocks` says beside
 * JAMBHARROW_WEIGHTS_SHORT how many blocks of weights there are and how many it needs. blocks[0] is
 * found: the whole blocks in the bytes that it was given. blocks[1] is needed: 1 for the dot of a
 * block, n / 256 rounded up for the dot of a row, and out_feat * (in_feat / 256) for a layer, a
 * piece and a run. Both are written where JAMBHARROW_WEIGHTS_SHORT is returned, and nowhere else.
 *
 * What scales lost. A call that picks the scales of its blocks and stores them in binary16 has
 * `lost` as its last parameter. lost[0] is how many scales were flushed to zero: those blocks
 * decode to zeros. lost[1] is how many were sent to infinity: those blocks decode to infinities and
 * NaN. Both are written where JAMBHARROW_DONE is returned, and nowhere else: a lost scale is no
 * refusal, and its block has the bytes that quant.rs gives it.
 *
 * NaN. Every other result has the bits that its contract says. Where a result is a NaN, the bits
 * may be those of any NaN.
 *
 * Stack. A call needs at most so many bytes of stack, on every processor for which the library is
 * delivered (`tools/stack` measures them). memcpy and memset, which the library takes from C, are not
 * counted. A * is for any letters of a name.
 *   163,840   linear_*_integer, linear_*_integer_rs
 *     8,192   the same, rows of up to 4,096 readings
 *     5,120   integer_dot_*
 *     4,096   canonical_dot_*_fused, q6k_fused_f32_dot, linear_*_fused, linear_*_cpu, piece, run
 *     2,560   dot_*_q8_block
 *     2,048   quantize_block_q8, dequantize_*
 *     1,024   every other call
 *
 * Licence. Apache License, Version 2.0. Who hands on a binary with this library in it hands on the
 * files LICENSE and NOTICE too, which stand beside the library where it is delivered.
 */
#ifndef JAMBHARROW_H
#define JAMBHARROW_H

#include <stdint.h>

#if defined(__arm__) && !defined(__ARM_PCS_VFP)
#error "the library takes floats in the registers of the FPU: compile with -mfloat-abi=hard"
#endif

/* The version of this interface: the major number is another where callers have to change, and the
 * minor one where there is more to call. JAMBHARROW_VERSION is a thousand times the major number, and
 * the minor one. */
#define JAMBHARROW_VERSION_MAJOR 4
#define JAMBHARROW_VERSION_MINOR 0
#define JAMBHARROW_VERSION (1000 * JAMBHARROW_VERSION_MAJOR + JAMBHARROW_VERSION_MINOR)

#ifdef __cplusplus
extern "C" {
#endif

/* A size or a count, of 64 bits on every processor, as in the proofs. Where a size_t is shorter, it
 * is widened as it is handed over; a pointer to one is no pointer to this, and compilers say so. */
typedef uint64_t jambharrow_size;

/* The version of the library that is linked. Where it is not JAMBHARROW_VERSION, the library is not
 * the one that this header was delivered with; one of the same major number and a higher minor one
 * has all that the header declares. */
uint32_t jambharrow_version(void);

/* What a call that can refuse returns: that it did its work, or why it did not. */
enum jambharrow_refusal {
    /* The call did its work. */
    JAMBHARROW_DONE = 0,
    /* Packed bytes are not whole blocks. */
    JAMBHARROW_NOT_WHOLE_BLOCKS = 1,
    /* A float count or in_feat is not a multiple of the block's values. */
    JAMBHARROW_NOT_A_MULTIPLE = 2,
    /* Fewer weights than needed. */
    JAMBHARROW_WEIGHTS_SHORT = 3,
    /* Fewer readings than needed; in the `_cpu` layers, any other length; more than 256 for one
     * activation block. */
    JAMBHARROW_READINGS_SHORT = 4,
    /* Output, scratch, slots or marks too short; in the `_cpu` layers, an output of any other
     * length. */
    JAMBHARROW_ROOM_SHORT = 5,
    /* Over one of the sizes below; a layer record's in_feat or out_feat out of range. */
    JAMBHARROW_TOO_LARGE = 6,
    /* An activation block whose sums are not the sums of its 32s. */
    JAMBHARROW_WRONG_SUMS = 7,
    /* A row or chunk outside the layer. */
    JAMBHARROW_OUTSIDE = 8,
    /* That piece is already done. */
    JAMBHARROW_ALREADY_DONE = 9,
    /* A row is closed while a piece of it is open. */
    JAMBHARROW_PIECE_OPEN = 10,
    /* A record is malformed. */
    JAMBHARROW_MALFORMED = 11,
    /* Unknown record kind or weight format. */
    JAMBHARROW_UNKNOWN = 12,
    /* A window still has warm-up readings. */
    JAMBHARROW_WARM_UP = 13,
    /* More weights than needed, in a `_cpu` layer. */
    JAMBHARROW_WEIGHTS_LONG = 14,
    /* An activation block that was not made of n readings, or has a quant past them that is not
     * 0. */
    JAMBHARROW_WRONG_COUNT = 15
};

/* The words for a number that a call returned, as a static string. A number that is none of
 * enum jambharrow_refusal has words of its own. */
static inline const char *jambharrow_refusal_words(uint32_t number)
{
    switch (number) {
    case JAMBHARROW_DONE: return "done";
    case JAMBHARROW_NOT_WHOLE_BLOCKS: return "packed bytes are not whole blocks";
    case JAMBHARROW_NOT_A_MULTIPLE: return "not a multiple of the block's values";
    case JAMBHARROW_WEIGHTS_SHORT: return "fewer weights than needed";
    case JAMBHARROW_READINGS_SHORT: return "not as many readings as the call takes";
    case JAMBHARROW_ROOM_SHORT: return "output, scratch, slots or marks of a wrong length";
    case JAMBHARROW_TOO_LARGE: return "a size that the call does not take";
    case JAMBHARROW_WRONG_SUMS: return "the block's sums are not the sums of its 32s";
    case JAMBHARROW_OUTSIDE: return "a row or chunk outside the layer";
    case JAMBHARROW_ALREADY_DONE: return "that piece is already done";
    case JAMBHARROW_PIECE_OPEN: return "a piece of the row is open";
    case JAMBHARROW_MALFORMED: return "a record is malformed";
    case JAMBHARROW_UNKNOWN: return "unknown record kind or weight format";
    case JAMBHARROW_WARM_UP: return "the window still has warm-up readings";
    case JAMBHARROW_WEIGHTS_LONG: return "more weights than needed";
    case JAMBHARROW_WRONG_COUNT: return "the block is not of n readings";
    default: return "a number that is not in the table";
    }
}

/* The sizes that a call takes; over one of them it says JAMBHARROW_TOO_LARGE. */

/* n and in_feat at most. */
#define JAMBHARROW_MOST_IN 131072
/* out_feat at most. */
#define JAMBHARROW_MOST_OUT 65536
/* batch at most. */
#define JAMBHARROW_MOST_BATCH 1024
/* Floats at most, where a quantizer or canonical_chunk is given them. */
#define JAMBHARROW_MOST_FLOATS 131072
/* Bytes at most, where a block decoder or a converter is given them. */
#define JAMBHARROW_MOST_BYTES 16777216

/* The sizes of packed weights and of what a layer needs beside them, for arrays. A format is named as
 * in JAMBHARROW_ROW_BYTES(Q4_K, in_feat). */

/* The values of a block, and its bytes. */
#define JAMBHARROW_Q4_0_BLOCK_VALUES 32
#define JAMBHARROW_Q4_0_BLOCK_BYTES 18
#define JAMBHARROW_IQ4_NL_BLOCK_VALUES 32
#define JAMBHARROW_IQ4_NL_BLOCK_BYTES 18
#define JAMBHARROW_Q5_0_BLOCK_VALUES 32
#define JAMBHARROW_Q5_0_BLOCK_BYTES 22
#define JAMBHARROW_Q8_0_BLOCK_VALUES 32
#define JAMBHARROW_Q8_0_BLOCK_BYTES 34
#define JAMBHARROW_Q4_K_BLOCK_VALUES 256
#define JAMBHARROW_Q4_K_BLOCK_BYTES 144
#define JAMBHARROW_Q5_K_BLOCK_VALUES 256
#define JAMBHARROW_Q5_K_BLOCK_BYTES 176
#define JAMBHARROW_Q6_K_BLOCK_VALUES 256
#define JAMBHARROW_Q6_K_BLOCK_BYTES 210
/* The bytes of so many values, which are whole blocks: a row of weights, or what a quantizer writes. */
#define JAMBHARROW_ROW_BYTES(format, values) \
    ((values) / JAMBHARROW_##format##_BLOCK_VALUES * JAMBHARROW_##format##_BLOCK_BYTES)
/* The bytes of a layer's weights, whose rows are whole blocks. */
#define JAMBHARROW_LAYER_BYTES(format, in_feat, out_feat) \
    ((out_feat) * JAMBHARROW_ROW_BYTES(format, in_feat))
/* The places of a chunk, and so of a piece, at most. */
#define JAMBHARROW_CHUNK 8192
/* The pieces of a stepped layer. It has a slot, a float, and a mark, a byte, for each. */
#define JAMBHARROW_PIECES(in_feat, out_feat) \
    ((out_feat) * (((in_feat) + JAMBHARROW_CHUNK - 1) / JAMBHARROW_CHUNK))
#define JAMBHARROW_SLOTS(in_feat, out_feat) JAMBHARROW_PIECES(in_feat, out_feat)
#define JAMBHARROW_MARKS(in_feat, out_feat) JAMBHARROW_PIECES(in_feat, out_feat)

/* Binary16, in which every packed block keeps its scales. */

/* The binary32 of a binary16's bits, as IEEE 754 has it: the same number, with its sign; a NaN for
 * a NaN. */
float jambharrow_f16_to_f32(uint16_t half);

/* How a number fared when it was narrowed to a binary16. */
enum jambharrow_how {
    /* The half has its value, as zeros and infinities have. */
    JAMBHARROW_EXACT = 0,
    /* Digits that do not fit are gone. */
    JAMBHARROW_CUT = 1,
    /* It was not zero, and the half is. */
    JAMBHARROW_FLUSHED = 2,
    /* The half is an infinity, and it was a NaN or finite. */
    JAMBHARROW_SENT_TO_INFINITY = 3
};

/* The bits of the binary16 that quant.rs makes of a binary32, whose bits are given, since only
 * there a NaN has a sign. Digits that do not fit are cut, a magnitude below 2^-14 becomes a signed
 * zero, and one too large an infinity of that sign; so does a NaN. `how` becomes the number of
 * enum jambharrow_how that says which of these it was; it is always written. */
uint16_t jambharrow_f32_to_f16(uint32_t bits, uint32_t *how);

/* Block decoders: packed blocks become floats.
 *
 * Each writes every value of its blocks, in order, at the front of `out`, and keeps the places
 * behind them. It refuses, in this order, with
 *   JAMBHARROW_TOO_LARGE          more than JAMBHARROW_MOST_BYTES bytes;
 *   JAMBHARROW_NOT_WHOLE_BLOCKS   bytes that are not whole blocks;
 *   JAMBHARROW_ROOM_SHORT         fewer places in `out` than the blocks have values.
 * s, d and dmin are the block's scales, each a binary16 widened by jambharrow_f16_to_f32. */

/* Q4_0: a block is 18 bytes, s and 16 bytes of nibbles, and has 32 values, s * (nibble - 8). In the
 * order of quant.rs neighbours share a byte: byte j has value 2 * j in its low nibble and value
 * 2 * j + 1 in its high one. */
uint32_t jambharrow_dequantize_q4_0(const uint8_t *bytes, jambharrow_size bytes_len,
                                    float *out, jambharrow_size out_len);

/* Q4_0 in GGML's order: the same block, but byte j has value j in its low nibble and value j + 16
 * in its high one. Nothing in a block says which order it has: one that is read by the other order
 * is not refused, and has its values at other places. */
uint32_t jambharrow_dequantize_q4_0_ggml(const uint8_t *bytes, jambharrow_size bytes_len,
                                         float *out, jambharrow_size out_len);

/* Q5_0: a block is 22 bytes, s, 32 high bits and 16 bytes of nibbles, and has 32 values,
 * s * (high bit and nibble - 16). */
uint32_t jambharrow_dequantize_q5_0(const uint8_t *bytes, jambharrow_size bytes_len,
                                    float *out, jambharrow_size out_len);

/* Q8_0: a block is 34 bytes, s and 32 signed bytes, and has 32 values, s * byte. */
uint32_t jambharrow_dequantize_q8_0(const uint8_t *bytes, jambharrow_size bytes_len,
                                    float *out, jambharrow_size out_len);

/* IQ4_NL: a block is 18 bytes, s and 16 bytes of nibbles, and has 32 values, s * v. Byte j has value
 * j in its low nibble and value j + 16 in its high one; a nibble from 0 to 15 picks v from
 *   -127, -104, -83, -65, -49, -35, -22, -10, 1, 13, 25, 38, 53, 69, 89, 113. */
uint32_t jambharrow_dequantize_iq4_nl(const uint8_t *bytes, jambharrow_size bytes_len,
                                      float *out, jambharrow_size out_len);

/* Q4_K: a block is 144 bytes, d, dmin, eight scales and minimums of six bits and 128 bytes of
 * nibbles, and has 256 values, (d * scale) * nibble - (dmin * minimum). */
uint32_t jambharrow_dequantize_q4_k(const uint8_t *bytes, jambharrow_size bytes_len,
                                    float *out, jambharrow_size out_len);

/* Q5_K: a block is 176 bytes, d, dmin, scales and minimums as in Q4_K, 32 bytes of fifth bits and
 * 128 bytes of nibbles as in Q4_K, and has 256 values, (d * scale) * q - (dmin * minimum). q is the
 * nibble plus 16 times its fifth bit, which for place l of the 32 values of scale j is bit j of
 * byte l. */
uint32_t jambharrow_dequantize_q5_k(const uint8_t *bytes, jambharrow_size bytes_len,
                                    float *out, jambharrow_size out_len);

/* Q6_K: a block is 210 bytes, 256 quants of six bits, 16 signed scales and d, and has 256 values,
 * (d * scale) * (quant - 32). */
uint32_t jambharrow_dequantize_q6_k(const uint8_t *bytes, jambharrow_size bytes_len,
                                    float *out, jambharrow_size out_len);

/* Block quantizers: 32 readings become a scale and 32 small integers.
 *
 * Each writes the bytes of every block, in order, at the front of `out`, and keeps the places
 * behind them. A scale that is picked is stored by jambharrow_f32_to_f16, and readings are brought
 * to integers by the inverse of the scale before it is stored. `lost` counts the blocks for whose scale that
 * says JAMBHARROW_FLUSHED, and those for whose scale it says JAMBHARROW_SENT_TO_INFINITY. Each
 * refuses, in this order, with
 *   JAMBHARROW_TOO_LARGE        more than JAMBHARROW_MOST_FLOATS readings;
 *   JAMBHARROW_NOT_A_MULTIPLE   a count of readings that is not a multiple of 32;
 *   JAMBHARROW_ROOM_SHORT       fewer places in `out` than the blocks have bytes. */

/* Q4_0: 18 bytes to 32 readings. The scale is the first reading of largest magnitude over -8. Where
 * it is not zero it is flushed if that magnitude is below 2^-11; it is sent to infinity if that is
 * finite and 2^19 or more. */
uint32_t jambharrow_quantize_q4_0(const float *x, jambharrow_size x_len,
                                  uint8_t *out, jambharrow_size out_len, jambharrow_size lost[2]);

/* Q4_0 in GGML's order: the same scales and nibbles, the latter at that order's places, and the same
 * counts. */
uint32_t jambharrow_quantize_q4_0_ggml(const float *x, jambharrow_size x_len,
                                       uint8_t *out, jambharrow_size out_len,
                                       jambharrow_size lost[2]);

/* Q8_0: 34 bytes to 32 readings. The scale is the largest magnitude over 127. Where it is not zero
 * it is flushed if that magnitude is below 127 * 2^-14; it is sent to infinity if that is finite
 * and 127 * 2^16 or more. */
uint32_t jambharrow_quantize_q8_0(const float *x, jambharrow_size x_len,
                                  uint8_t *out, jambharrow_size out_len, jambharrow_size lost[2]);

/* IQ4_NL: 18 bytes to 32 readings. The scale is given, the bits of a binary16, and every block stores
 * them as they are; none is picked, so none is lost. Each reading is brought to an integer as in an
 * activation block whose d is the scale, widened: times the inverse, which is 0 where d is 0, to the
 * nearest whole number, within -127 to 127, and 0 for a NaN. The nibble is that of the value nearest
 * to the integer, the lower of two as near. A scale that is a zero, an infinity or a NaN makes every
 * integer 0 and every nibble 8, whose value is 1. */
uint32_t jambharrow_quantize_iq4_nl(const float *x, jambharrow_size x_len, uint16_t scale,
                                    uint8_t *out, jambharrow_size out_len);

/* Converters between the two orders of Q4_0: the nibbles of each block move to the places of the
 * other order, so that the other order's decoder gives the same values. The two bytes of its scale
 * are copied as they are.
 *
 * Each writes as many bytes as it is given, block by block, at the front of `out`, and keeps the
 * places behind them; it does not work in place. One undoes the other. Each refuses, in this order,
 * with
 *   JAMBHARROW_TOO_LARGE          more than JAMBHARROW_MOST_BYTES bytes;
 *   JAMBHARROW_NOT_WHOLE_BLOCKS   bytes that are not whole blocks of 18;
 *   JAMBHARROW_ROOM_SHORT         fewer places in `out` than there are bytes. */

/* From the order of quant.rs to GGML's. */
uint32_t jambharrow_q4_0_to_ggml(const uint8_t *bytes, jambharrow_size bytes_len,
                                 uint8_t *out, jambharrow_size out_len);

/* From GGML's order to that of quant.rs. */
uint32_t jambharrow_q4_0_from_ggml(const uint8_t *bytes, jambharrow_size bytes_len,
                                   uint8_t *out, jambharrow_size out_len);

/* Fixed-order sums: each adds in one order, so that a result has one set of bits.
 *
 * A chunk has eight lanes, which start at +0.0; its term i is added to lane i mod 8, i rising. The
 * lanes meet in a pairwise tree: neighbours are added, an odd last one moves up, until one is left;
 * an empty tree is +0.0. A row is cut into chunks of 8,192 terms, whose sums meet in the same
 * tree. */

/* The dot of all of x and the front of w, as one chunk. Weights behind it are not looked at. It
 * refuses, in this order, with
 *   JAMBHARROW_TOO_LARGE       more than JAMBHARROW_MOST_FLOATS readings;
 *   JAMBHARROW_WEIGHTS_SHORT   fewer weights than readings. */
uint32_t jambharrow_canonical_chunk(const float *x, jambharrow_size x_len,
                                    const float *w, jambharrow_size w_len,
                                    float *value);

/* The tree over a slice of any length, worked in the slice: each round fills the front half and
 * leaves the places behind it as they are. It never refuses. */
float jambharrow_canonical_combine(float *part, jambharrow_size part_len);

/* The dot of the first n readings and weights, as a row; what stands behind them is not looked at.
 * It refuses with JAMBHARROW_TOO_LARGE where n is over JAMBHARROW_MOST_IN; then n = 0 is answered
 * with +0.0; then it refuses, in this order, with
 *   JAMBHARROW_WEIGHTS_SHORT    fewer than n weights;
 *   JAMBHARROW_READINGS_SHORT   fewer than n readings. */
uint32_t jambharrow_canonical_dot_pub(const float *x, jambharrow_size x_len,
                                      const float *w, jambharrow_size w_len,
                                      jambharrow_size n, float *value);

/* The sum of the first n readings, as a row; what stands behind them is not looked at. It refuses
 * with JAMBHARROW_TOO_LARGE where n is over JAMBHARROW_MOST_IN; then n = 0 is answered with +0.0;
 * then it refuses with JAMBHARROW_READINGS_SHORT where there are fewer than n readings. */
uint32_t jambharrow_canonical_sum_pub(const float *x, jambharrow_size x_len,
                                      jambharrow_size n, float *value);

/* Activation blocks: up to 256 readings become small integers with one float scale, and a dot over
 * them is a sum of whole numbers, which no order of adding changes.
 *
 * A block is four parts, each where the caller has it: d, the scale; qs, 256 quants; bsums, the sums
 * of the quants, 32 to each; and count, how many readings it was made of. They belong together: hand
 * a dot the four that one call wrote, and for n the block's count. */

/* The block of at most 256 readings. d is the largest magnitude over 127. A quant is a reading times
 * the inverse of d, to the nearest whole number, within -127 to 127, and 0 past the readings. It
 * refuses with JAMBHARROW_READINGS_SHORT where there are more than 256 readings, and then writes
 * none of the four parts. */
uint32_t jambharrow_quantize_block_q8(const float *x, jambharrow_size x_len,
                                      float *d, int8_t qs[256], int32_t bsums[8],
                                      jambharrow_size *count);

/* The dot of the Q4_K block at the front of w and an activation block:
 * (w's d * d) * A - (w's dmin * d) * M. A is the sum of scale * nibble * quant over the places below
 * n, above 256 taken as 256, and M that of minimum * sum over all eight sums; n = 0 has no short cut.
 * Bytes behind the block are not looked at. It refuses, in this order, with
 *   JAMBHARROW_WEIGHTS_SHORT   fewer than 144 bytes;
 *   JAMBHARROW_WRONG_COUNT     an n, above 256 taken as 256, that is not the block's count, or a
 *                              quant past the count that is not 0; so a count above 256 is refused
 *                              whatever n is;
 *   JAMBHARROW_WRONG_SUMS      sums that are not the sums of the block's 32s.
 * Where it answers, the places past n add nothing to A, nor to M. */
uint32_t jambharrow_dot_q4k_q8_block(const uint8_t *w, jambharrow_size w_len,
                                     float d, const int8_t qs[256], const int32_t bsums[8],
                                     jambharrow_size count, jambharrow_size n, float *value,
                                     jambharrow_size blocks[2]);

/* The dot of the Q5_K block at the front of w and an activation block: the same with q, the nibble
 * plus 16 times its fifth bit, in the place of the nibble. It refuses in the same order, with
 *   JAMBHARROW_WEIGHTS_SHORT   fewer than 176 bytes;
 *   JAMBHARROW_WRONG_COUNT     a count that is not n, or a quant past it, as above;
 *   JAMBHARROW_WRONG_SUMS      sums that are not the sums of the block's 32s. */
uint32_t jambharrow_dot_q5k_q8_block(const uint8_t *w, jambharrow_size w_len,
                                     float d, const int8_t qs[256], const int32_t bsums[8],
                                     jambharrow_size count, jambharrow_size n, float *value,
                                     jambharrow_size blocks[2]);

/* The dot of the Q6_K block at the front of w and an activation block: (w's d * d) * B, where B is
 * the sum of scale * (quant of w - 32) * quant over the places below n, above 256 taken as 256. The
 * sums are not looked at, nor are bytes behind the block. It refuses, in this order, with
 *   JAMBHARROW_WEIGHTS_SHORT   fewer than 210 bytes;
 *   JAMBHARROW_WRONG_COUNT     a count that is not n, or a quant past it, as above. */
uint32_t jambharrow_dot_q6k_q8_block(const uint8_t *w, jambharrow_size w_len,
                                     float d, const int8_t qs[256], const int32_t bsums[8],
                                     jambharrow_size count, jambharrow_size n, float *value,
                                     jambharrow_size blocks[2]);

/* Dots of a row: the first n readings, and the first n weights of packed blocks.
 *
 * Each refuses, in this order, with
 *   JAMBHARROW_TOO_LARGE          an n over JAMBHARROW_MOST_IN;
 *   JAMBHARROW_NOT_WHOLE_BLOCKS   bytes that are not whole blocks;
 * then n = 0 is answered with +0.0; then it refuses, in this order, with
 *   JAMBHARROW_WEIGHTS_SHORT      blocks of fewer than n weights;
 *   JAMBHARROW_READINGS_SHORT     fewer than n readings.
 * Readings and whole blocks behind the first n places are not looked at. */

/* Q4_K, in whole numbers: each 256 readings are made an activation block, the last of fewer where n
 * ends inside it, and the dots of the blocks, as jambharrow_dot_q4k_q8_block has them, meet in the
 * tree. */
uint32_t jambharrow_integer_dot_q4k(const float *x, jambharrow_size x_len,
                                    const uint8_t *w, jambharrow_size w_len,
                                    jambharrow_size n, float *value, jambharrow_size blocks[2]);

/* Q5_K, in whole numbers: the same by jambharrow_dot_q5k_q8_block. */
uint32_t jambharrow_integer_dot_q5k(const float *x, jambharrow_size x_len,
                                    const uint8_t *w, jambharrow_size w_len,
                                    jambharrow_size n, float *value, jambharrow_size blocks[2]);

/* Q4_K, fused: what jambharrow_canonical_dot_pub answers for the decoded weights, with no room for
 * them. */
uint32_t jambharrow_canonical_dot_q4k_fused(const float *x, jambharrow_size x_len,
                                            const uint8_t *w, jambharrow_size w_len,
                                            jambharrow_size n, float *value,
                                            jambharrow_size blocks[2]);

/* Q5_K, fused: the same. */
uint32_t jambharrow_canonical_dot_q5k_fused(const float *x, jambharrow_size x_len,
                                            const uint8_t *w, jambharrow_size w_len,
                                            jambharrow_size n, float *value,
                                            jambharrow_size blocks[2]);

/* Q6_K, fused: the same. */
uint32_t jambharrow_q6k_fused_f32_dot(const float *x, jambharrow_size x_len,
                                      const uint8_t *w, jambharrow_size w_len,
                                      jambharrow_size n, float *value, jambharrow_size blocks[2]);

/* Layers: every row of readings against every row of packed weights.
 *
 * A layer has `batch` rows of in_feat readings, out_feat rows of in_feat weights, and an output for
 * each pair of them: that of reading row b and weight row o goes to y[b * out_feat + o]. What it
 * needs are products of these sizes, also where batch or out_feat is 0.
 *
 * Fused and integer layers, whose rows are whole blocks. Each refuses, in this order, with
 *   JAMBHARROW_TOO_LARGE        a batch over JAMBHARROW_MOST_BATCH, an in_feat over
 *                               JAMBHARROW_MOST_IN or an out_feat over JAMBHARROW_MOST_OUT;
 *   JAMBHARROW_NOT_A_MULTIPLE   an in_feat that is not a multiple of 256;
 *   JAMBHARROW_WEIGHTS_SHORT    fewer bytes than out_feat rows have;
 *   JAMBHARROW_READINGS_SHORT   fewer than batch * in_feat readings;
 *   JAMBHARROW_ROOM_SHORT       fewer than batch * out_feat places in y.
 * Bytes, readings and places of y behind those that it needs are not looked at, and kept. */

/* Q4_K, fused: an output is jambharrow_canonical_dot_q4k_fused of its rows. */
uint32_t jambharrow_linear_q4_k_fused(const float *x, jambharrow_size x_len,
                                      const uint8_t *w, jambharrow_size w_len,
                                      float *y, jambharrow_size y_len,
                                      jambharrow_size batch, jambharrow_size in_feat,
                                      jambharrow_size out_feat, jambharrow_size blocks[2]);

/* Q5_K, fused: the same by jambharrow_canonical_dot_q5k_fused. */
uint32_t jambharrow_linear_q5_k_fused(const float *x, jambharrow_size x_len,
                                      const uint8_t *w, jambharrow_size w_len,
                                      float *y, jambharrow_size y_len,
                                      jambharrow_size batch, jambharrow_size in_feat,
                                      jambharrow_size out_feat, jambharrow_size blocks[2]);

/* Q6_K, fused: the same by jambharrow_q6k_fused_f32_dot. */
uint32_t jambharrow_linear_q6_k_fused(const float *x, jambharrow_size x_len,
                                      const uint8_t *w, jambharrow_size w_len,
                                      float *y, jambharrow_size y_len,
                                      jambharrow_size batch, jambharrow_size in_feat,
                                      jambharrow_size out_feat, jambharrow_size blocks[2]);

/* Q4_K, in whole numbers: each row of readings is made activation blocks once, and an output is the
 * dots of its rows' blocks, as jambharrow_dot_q4k_q8_block has them, met in the tree. The blocks of
 * a row of readings stand on the stack. */
uint32_t jambharrow_linear_q4_k_integer(const float *x, jambharrow_size x_len,
                                        const uint8_t *w, jambharrow_size w_len,
                                        float *y, jambharrow_size y_len,
                                        jambharrow_size batch, jambharrow_size in_feat,
                                        jambharrow_size out_feat, jambharrow_size blocks[2]);

/* Q5_K, in whole numbers: the same by jambharrow_dot_q5k_q8_block. */
uint32_t jambharrow_linear_q5_k_integer(const float *x, jambharrow_size x_len,
                                        const uint8_t *w, jambharrow_size w_len,
                                        float *y, jambharrow_size y_len,
                                        jambharrow_size batch, jambharrow_size in_feat,
                                        jambharrow_size out_feat, jambharrow_size blocks[2]);

/* Q6_K, in whole numbers: the same by jambharrow_dot_q6k_q8_block. */
uint32_t jambharrow_linear_q6_k_integer(const float *x, jambharrow_size x_len,
                                        const uint8_t *w, jambharrow_size w_len,
                                        float *y, jambharrow_size y_len,
                                        jambharrow_size batch, jambharrow_size in_feat,
                                        jambharrow_size out_feat, jambharrow_size blocks[2]);

/* Q4_K, in whole numbers as jambharrow_linear_q4_k_integer, but the dots of the blocks meet in a
 * running sum from +0.0. */
uint32_t jambharrow_linear_q4_k_integer_rs(const float *x, jambharrow_size x_len,
                                           const uint8_t *w, jambharrow_size w_len,
                                           float *y, jambharrow_size y_len,
                                           jambharrow_size batch, jambharrow_size in_feat,
                                           jambharrow_size out_feat, jambharrow_size blocks[2]);

/* Q5_K, in whole numbers as jambharrow_linear_q5_k_integer, but the dots of the blocks meet in a
 * running sum from +0.0. */
uint32_t jambharrow_linear_q5_k_integer_rs(const float *x, jambharrow_size x_len,
                                           const uint8_t *w, jambharrow_size w_len,
                                           float *y, jambharrow_size y_len,
                                           jambharrow_size batch, jambharrow_size in_feat,
                                           jambharrow_size out_feat, jambharrow_size blocks[2]);

/* Q6_K, in whole numbers as jambharrow_linear_q6_k_integer, but the dots of the blocks meet in a
 * running sum from +0.0. */
uint32_t jambharrow_linear_q6_k_integer_rs(const float *x, jambharrow_size x_len,
                                           const uint8_t *w, jambharrow_size w_len,
                                           float *y, jambharrow_size y_len,
                                           jambharrow_size batch, jambharrow_size in_feat,
                                           jambharrow_size out_feat, jambharrow_size blocks[2]);

/* The `_cpu` layers decode each row of weights into `scratch`, and an output is
 * jambharrow_canonical_dot_pub of its rows. Afterwards the first in_feat places of scratch hold the
 * last row decoded, or what they held, where batch or out_feat is 0; places behind them are kept. */

/* Q4_K. Rows need not be whole blocks: two rows of 128 share one. It refuses, in this order, with
 *   JAMBHARROW_TOO_LARGE          as the layers above;
 *   JAMBHARROW_READINGS_SHORT     any other count of readings than batch * in_feat;
 *   JAMBHARROW_ROOM_SHORT         any other count of places in y than batch * out_feat;
 *   JAMBHARROW_NOT_WHOLE_BLOCKS   bytes that are not whole blocks;
 *   JAMBHARROW_WEIGHTS_SHORT      blocks of fewer weights than out_feat * in_feat;
 *   JAMBHARROW_WEIGHTS_LONG       blocks of more, in its place;
 *   JAMBHARROW_ROOM_SHORT         fewer than in_feat places in scratch. */
uint32_t jambharrow_linear_q4_k_cpu(const float *x, jambharrow_size x_len,
                                    const uint8_t *w, jambharrow_size w_len,
                                    float *y, jambharrow_size y_len,
                                    float *scratch, jambharrow_size scratch_len,
                                    jambharrow_size batch, jambharrow_size in_feat,
                                    jambharrow_size out_feat);

/* Q6_K: the same. */
uint32_t jambharrow_linear_q6_k_cpu(const float *x, jambharrow_size x_len,
                                    const uint8_t *w, jambharrow_size w_len,
                                    float *y, jambharrow_size y_len,
                                    float *scratch, jambharrow_size scratch_len,
                                    jambharrow_size batch, jambharrow_size in_feat,
                                    jambharrow_size out_feat);

/* Q4_0, whose rows are whole blocks. It refuses, in this order, with
 *   JAMBHARROW_TOO_LARGE        as the layers above;
 *   JAMBHARROW_NOT_A_MULTIPLE   an in_feat that is not a multiple of 32;
 *   JAMBHARROW_WEIGHTS_SHORT    fewer bytes than out_feat rows have;
 *   JAMBHARROW_WEIGHTS_LONG     more, in its place;
 *   JAMBHARROW_READINGS_SHORT   any other count of readings than batch * in_feat;
 *   JAMBHARROW_ROOM_SHORT       any other count of places in y than batch * out_feat;
 *   JAMBHARROW_ROOM_SHORT       fewer than in_feat places in scratch. */
uint32_t jambharrow_linear_q4_0_cpu(const float *x, jambharrow_size x_len,
                                    const uint8_t *w, jambharrow_size w_len,
                                    float *y, jambharrow_size y_len,
                                    float *scratch, jambharrow_size scratch_len,
                                    jambharrow_size batch, jambharrow_size in_feat,
                                    jambharrow_size out_feat);

/* Q4_0 in GGML's order: the same. */
uint32_t jambharrow_linear_q4_0_ggml_cpu(const float *x, jambharrow_size x_len,
                                         const uint8_t *w, jambharrow_size w_len,
                                         float *y, jambharrow_size y_len,
                                         float *scratch, jambharrow_size scratch_len,
                                         jambharrow_size batch, jambharrow_size in_feat,
                                         jambharrow_size out_feat);

/* IQ4_NL: the same as Q4_0. */
uint32_t jambharrow_linear_iq4_nl_cpu(const float *x, jambharrow_size x_len,
                                      const uint8_t *w, jambharrow_size w_len,
                                      float *y, jambharrow_size y_len,
                                      float *scratch, jambharrow_size scratch_len,
                                      jambharrow_size batch, jambharrow_size in_feat,
                                      jambharrow_size out_feat);

/* The stepped layer: a layer worked one piece of one row at a time, so that the work may stop after
 * any call and go on at a later one.
 *
 * A layer is its weights' format, in_feat readings and out_feat rows of packed weights, one output
 * to each. A piece is one chunk of one row: a row has a chunk for each 8,192 of its places, the
 * last of fewer where in_feat ends inside it, and none where in_feat is 0. A piece has a slot,
 * where its sum waits, and a mark, which is nonzero once it is done; slots and marks go row by row,
 * and a row's by rising chunks. They are all that a call leaves behind for the next: a caller keeps
 * them, and gives each call the same layer, weights and readings.
 *
 * After an open, in whatever order pieces are worked: a row can be closed once all its pieces are
 * done, and its output then has the bits of jambharrow_canonical_dot_q4k_fused,
 * jambharrow_canonical_dot_q5k_fused or jambharrow_q6k_fused_f32_dot on that row.
 *
 * Each refuses, in this order, with
 *   JAMBHARROW_UNKNOWN          a format that is not of enum jambharrow_format;
 *   JAMBHARROW_TOO_LARGE        in_feat over JAMBHARROW_MOST_IN, or out_feat over
 *                               JAMBHARROW_MOST_OUT;
 *   JAMBHARROW_NOT_A_MULTIPLE   an in_feat that is not a multiple of 256;
 * then, of the memory that it is given, with
 *   JAMBHARROW_WEIGHTS_SHORT    fewer weights than the rows of the layer have;
 *   JAMBHARROW_READINGS_SHORT   fewer than in_feat readings;
 *   JAMBHARROW_ROOM_SHORT       fewer slots or marks than the layer has pieces, or fewer than
 *                               out_feat places in y;
 * then as the words beside it say. What stands behind the layer's own weights, readings, slots,
 * marks and outputs is not looked at, and is kept. */

/* The formats of a stepped layer's weights. */
enum jambharrow_format {
    JAMBHARROW_Q4_K = 4,
    JAMBHARROW_Q5_K = 5,
    JAMBHARROW_Q6_K = 6
};

/* Begins the work: the mark of every piece becomes 0, and its slot +0.0. */
uint32_t jambharrow_open(uint8_t format, jambharrow_size in_feat, jambharrow_size out_feat,
                         float *slots, jambharrow_size slots_len,
                         uint8_t *marks, jambharrow_size marks_len);

/* Works one piece: its slot becomes the sum of its chunk of the row, and its mark 1. At the end it
 * refuses, in this order, with
 *   JAMBHARROW_OUTSIDE        a row or a chunk that the layer does not have;
 *   JAMBHARROW_ALREADY_DONE   a piece whose mark is not 0. */
uint32_t jambharrow_piece(uint8_t format, jambharrow_size in_feat, jambharrow_size out_feat,
                          const uint8_t *w, jambharrow_size w_len,
                          const float *x, jambharrow_size x_len,
                          jambharrow_size row, jambharrow_size chunk,
                          float *slots, jambharrow_size slots_len,
                          uint8_t *marks, jambharrow_size marks_len, jambharrow_size blocks[2]);

/* Works the next open pieces in row order, chunks rising, at most `budget`. `done` is how many it
 * worked, the smaller of `budget` and the pieces that were open, and `left` how many stay open.
 * Both are written only where JAMBHARROW_DONE is returned. */
uint32_t jambharrow_run(uint8_t format, jambharrow_size in_feat, jambharrow_size out_feat,
                        const uint8_t *w, jambharrow_size w_len,
                        const float *x, jambharrow_size x_len,
                        jambharrow_size budget,
                        float *slots, jambharrow_size slots_len,
                        uint8_t *marks, jambharrow_size marks_len,
                        jambharrow_size *done, jambharrow_size *left, jambharrow_size blocks[2]);

/* Writes the output of a row at its place in y: the row's slots, met in the tree, +0.0 where
 * in_feat is 0. Slots and marks stay, and a row may be closed again. At the end it refuses, in this
 * order, with
 *   JAMBHARROW_OUTSIDE      a row that the layer does not have;
 *   JAMBHARROW_PIECE_OPEN   a row of which a piece is open. */
uint32_t jambharrow_close(uint8_t format, jambharrow_size in_feat, jambharrow_size out_feat,
                          jambharrow_size row,
                          const float *slots, jambharrow_size slots_len,
                          const uint8_t *marks, jambharrow_size marks_len,
                          float *y, jambharrow_size y_len);

#ifdef __cplusplus
}
#endif

#endif
