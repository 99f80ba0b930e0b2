/*
 * The Rust's stored answers, crates/replay/stdin of the repository, replayed by the calls of the
 * library. The file is part of the program: -DSAMPLE='"PATH"'. It prints what crates/replay does. A
 * record is a tag, a length and a payload. tools/on-board makes judges.h of the header and of the
 * records: of each call `f` a function judge_f, which reads the payload's input into what the call is
 * lent, calls it and holds what it left to the payload's answer; and `judge`, which goes by the tag.
 */
#include "lent.h"

__asm__(".section .rodata\n.global sample, sample_end\nsample: .incbin \"" SAMPLE "\"\nsample_end:\n.text\n");
extern const uint8_t sample[], sample_end[];

/* Where the payload is read next. */
static const uint8_t *next;

static uint32_t take(unsigned count)
{
    uint32_t number = 0;
    for (unsigned i = 0; i < count; i++) {
        number |= (uint32_t)*next++ << 8 * i;
    }
    return number;
}

static void take_bytes(void *to, jambharrow_size count)
{
    memcpy(to, next, (size_t)count);
    next += count;
}

static int same_bytes(const void *ours, jambharrow_size count)
{
    next += count;
    return memcmp(ours, next - count, (size_t)count) == 0;
}

/* The same bits, or both NaN, at every place. */
static int same_floats(const float *ours, jambharrow_size count)
{
    int same = 1;
    for (jambharrow_size i = 0; i < count; i++) {
        uint32_t a = bits_of(ours[i]), b = take(4);
        same &= a == b || (is_nan(a) && is_nan(b));
    }
    return same;
}

/* Two counts. */
static int same_counts(const jambharrow_size *ours)
{
    int same = take(4) == ours[0];
    return same & (take(4) == ours[1]);
}

static void stand_floats(float *to, jambharrow_size count)
{
    for (jambharrow_size i = 0; i < count; i++) {
        to[i] = STOOD_FLOAT;
    }
}

static void stand_bytes(void *to, jambharrow_size count)
{
    memset(to, STOOD_BYTE, (size_t)count);
}

/* A history of the stepped layer: pieces in some order, the rest by runs of one, every row closed. */
static int judge_stepped(void)
{
    format = (uint8_t)take(4), in_feat = take(4), out_feat = take(4), w_len = take(4);
    uint32_t pieces = take(4);
    x_len = in_feat, slots_len = marks_len = 16, y_len = out_feat, budget = 1, left = 1;
    take_bytes(x.floats, 4 * x_len);
    take_bytes(w.bytes, w_len);
    stand_bytes(marks.bytes, marks_len);
    int accepted = call_open() == JAMBHARROW_DONE;
    while (pieces-- > 0) {
        row = take(4), chunk = take(4);
        accepted &= call_piece() == JAMBHARROW_DONE;
    }
    for (int turn = 0; turn < 16 && left > 0; turn++) {
        accepted &= call_run() == JAMBHARROW_DONE && (left == 0 || done == 1);
    }
    for (row = 0; row < out_feat; row++) {
        accepted &= call_close() == JAMBHARROW_DONE;
    }
    return same_floats(y.floats, out_feat) && accepted && left == 0;
}

#include "judges.h"

int main(void)
{
    unsigned answers = 0, differ = 0;
    for (const uint8_t *at = sample; at < sample_end;) {
        next = at;
        uint8_t tag = (uint8_t)take(1);
        uint32_t len = take(4);
        at = next + len;
        if (tag == 255) {
            printf("%.*s: %u answers, %u differ\n", (int)len, (const char *)next, answers, differ);
            answers = differ = 0;
            continue;
        }
        answers++;
        differ += !judge(tag);
        if (next != at) {
            printf("tag %u: the payload is not of its call's form\n", tag);
            return 1;
        }
    }
    return 0;
}
