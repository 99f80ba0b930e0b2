/*
 * Document 01's bench card and the cases that are run only, by the calls of the library. It prints
 * what crates/bench_card does: behind the rows and the cases stand three wrong ones, so that a judge
 * that finds everything right is seen. Row 10, a whole number that becomes a float, and row 12, a
 * scaled reading that gives a quant, are asked of calls that take these steps.
 */
#include "lent.h"

static unsigned wrong;

static void judged(const char *what, unsigned number, int right)
{
    printf("%s %u: %s\n", what, number, right ? "ok" : "WRONG");
    wrong += !right;
}

static void counted(unsigned rows, const char *what)
{
    printf("%u %s, %u wrong\n", rows, what, wrong);
    wrong = 0;
}

static int widens(uint16_t of, uint32_t to)
{
    half = of;
    return bits_of(call_f16_to_f32()) == to;
}

static int encodes(uint32_t of, uint32_t to)
{
    bits = of;
    return call_f32_to_f16() == to;
}

/* Q4_0 of a first reading and 31 zeros: these three bytes, then fifteen 88. */
static int packs(float first, uint8_t a, uint8_t b, uint8_t c)
{
    const uint8_t front[3] = {a, b, c};
    memset(&x, 0, sizeof x);
    x.floats[0] = first, x_len = 32, out_len = 18;
    int same = call_quantize_q4_0() == JAMBHARROW_DONE && memcmp(out.bytes, front, 3) == 0;
    for (int i = 3; i < 18; i++) {
        same &= out.bytes[i] == 0x88;
    }
    return same;
}

static int sums(float first, uint32_t to)
{
    x.floats[0] = first, x.floats[1] = x.floats[2] = 1, x_len = n = 3;
    return call_canonical_sum_pub() == JAMBHARROW_DONE && bits_of(value) == to;
}

/* Whole numbers whose sum is `sum`, each at most 127, to `count` places from `from`; what is over. */
static int spread(int sum, int from, int count)
{
    for (int i = from; i < from + count; i++) {
        int part = sum > 127 ? 127 : sum;
        x.floats[i] = (float)part;
        sum -= part;
    }
    return sum;
}

/* The dot of a Q4_K block and an activation block whose A is 16,777,219, with d = 1 on both sides and no minimums.
 * Sub-blocks 0 to 3 and 5 have scale 63 and nibbles 15, so 945 to a quant; sub-block 4 has scale 1 and nibbles 1.
 * 945 * 17,753 is 16,776,585, and 634 more make it. The largest reading is 127, so that the quants are the readings. */
static int becomes(void)
{
    memset(&w, 0, sizeof w);
    w.bytes[1] = 0x3C;
    memset(w.bytes + 4, 63, 4);
    w.bytes[5] |= 0xC0; /* scale 5: 15 below, and 48 of these two bits */
    w.bytes[12] = 1, w.bytes[13] = 0x0F;
    memset(w.bytes + 16, 0xFF, 64);
    memset(w.bytes + 80, 0xF1, 32);
    memset(&x, 0, sizeof x);
    int over = spread(spread(17753, 0, 128), 160, 32) | spread(634, 128, 32);
    x_len = n = 256, w_len = 144;
    return over == 0 && call_quantize_block_q8() == JAMBHARROW_DONE && d == 1
        && call_dot_q4k_q8_block() == JAMBHARROW_DONE && bits_of(value) == 0x4B800002;
}

/* Readings 2^-126, 2^-140, 0: d is so small that its inverse is infinite, and the quants are these. */
static int quantizes(void)
{
    x.floats[0] = of_bits(0x00800000), x.floats[1] = of_bits(0x00000200), x.floats[2] = 0, x_len = 3;
    return call_quantize_block_q8() == JAMBHARROW_DONE && bits_of(1 / d) == 0x7F800000
        && qs[0] == 127 && qs[1] == 127 && qs[2] == 0;
}

/* A scaled reading of 3EFFFFFF: the largest is 127, so that the inverse is 1. */
static int gives(int quant)
{
    x.floats[0] = 127, x.floats[1] = of_bits(0x3EFFFFFF), x_len = 2;
    return call_quantize_block_q8() == JAMBHARROW_DONE && d == 1 && qs[1] == quant;
}

static void run_rows(void)
{
    judged("row", 1, widens(0x3C00, 0x3F800000));
    judged("row", 2, widens(0x0001, 0x33800000));
    judged("row", 3, widens(0x03FF, 0x387FC000));
    judged("row", 4, encodes(0x387FFFFF, 0x0000) && encodes(0x38800000, 0x0400));
    judged("row", 5, encodes(0x3F801FFF, 0x3C00));
    judged("row", 6, encodes(0x477FFFFF, 0x7BFF) && encodes(0x47800000, 0x7C00) && encodes(0xFFC00000, 0xFC00));
    judged("row", 7, packs(0, 0x00, 0x80, 0x88));
    judged("row", 8, packs(8, 0x00, 0xBC, 0x80));
    judged("row", 9, sums(16777216, 0x4B800000));
    judged("row", 10, becomes());
    judged("row", 11, quantizes());
    judged("row", 12, gives(1));
    counted(12, "rows");
}

/* The first n readings against weights of 1, as floats. */
static int against_ones(unsigned count, float sum)
{
    for (unsigned i = 0; i < 8193; i++) {
        w.floats[i] = 1;
    }
    x_len = w_len = 8193, n = count, value = STOOD_FLOAT;
    return call_canonical_dot_pub() == JAMBHARROW_DONE && bits_of(value) == bits_of(sum);
}

/* The same against one Q4_K block of ones: where that is too short, the number `no`, and no value. */
static int against_one_block(unsigned count, uint32_t no, float sum)
{
    memset(w.bytes, 0x11, 144);
    memcpy(w.bytes, "\x00\x3C\x00\x00\x01\x01\x01\x01", 8);
    x_len = 8193, w_len = 144, n = count, value = STOOD_FLOAT;
    return call_canonical_dot_q4k_fused() == no && bits_of(value) == bits_of(no == JAMBHARROW_DONE ? sum : STOOD_FLOAT);
}

static void run_cases(void)
{
    static const unsigned counts[7] = {0, 1, 8192, 8193, 255, 256, 257};
    for (unsigned i = 0; i < 8193; i++) {
        x.floats[i] = (float)(i % 7 + 1);
    }
    for (unsigned i = 0; i < 7; i++) {
        float sum = 0;
        for (unsigned k = 0; k < counts[i]; k++) {
            sum += x.floats[k];
        }
        judged("run only", counts[i], i < 4 ? against_ones(counts[i], sum)
            : against_one_block(counts[i], counts[i] > 256 ? JAMBHARROW_WEIGHTS_SHORT : JAMBHARROW_DONE, sum));
    }
    counted(7, "run only");
}

int main(void)
{
    run_rows();
    run_cases();
    judged("wrong", 1, gives(0));
    judged("wrong", 2, against_ones(1, 2));
    judged("wrong", 3, against_one_block(257, JAMBHARROW_READINGS_SHORT, 0));
    counted(3, "wrong on purpose");
    return 0;
}
