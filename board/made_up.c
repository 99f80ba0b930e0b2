/*
 * Every public call on made-up input, refusals among it: a line for each case, with the number that
 * is returned and a digest of all memory that the call was lent, the places behind its lengths too.
 * The lines of two processors are compared. Any NaN counts as any other. tools/on-board makes cases.h
 * of include/jambharrow.h: of each call `f` a function case_f, which draws what the call is given,
 * calls it and prints its line; and `cases`, the list of them.
 */
#include "lent.h"

/* The numbers that are drawn: xorshift, from the same seed everywhere. */
static uint64_t state = 0x9E3779B97F4A7C15u;

static uint32_t draw(void)
{
    state ^= state << 13, state ^= state >> 7, state ^= state << 17;
    return (uint32_t)(state >> 32);
}

static uint32_t below(uint32_t n)
{
    return (uint32_t)(((uint64_t)draw() * n) >> 32);
}

/* A count: most often `n`, or near it. */
static jambharrow_size near(jambharrow_size n)
{
    switch (below(16)) {
    case 0: return n ? n - 1 : 0;
    case 1: return n + 1;
    case 2: return below((uint32_t)n + 1);
    default: return n;
    }
}

/* A number that goes with no memory: most often `n`; or one that a processor of 32 bits could take for it. */
static jambharrow_size wide(jambharrow_size n)
{
    switch (below(48)) {
    case 0: return n + (UINT64_C(1) << 32);
    case 1: return UINT64_MAX;
    default: return n;
    }
}

/* How many places a slice has that needs `need`: near that, and no more than there is room for. */
static jambharrow_size length(jambharrow_size need, jambharrow_size most)
{
    jambharrow_size len = near(need);
    return len < most ? len : most;
}

/* A row's places: few, whole blocks, or many. */
static uint32_t some_count(void)
{
    return below(3) ? below(600) : below(2) ? 256 * below(9) : below(2300);
}

/* The bytes and the values of the blocks of the call at hand. */
static uint32_t size, values;

/* A layer's in_feat: whole blocks, half blocks, or near. */
static jambharrow_size some_in_feat(void)
{
    return below(4) ? values * below(6) : below(2) ? values / 2 * below(7) : near(values * below(6));
}

/* A float's bits, of one of many kinds: any, subnormals, whole numbers, near one, far apart, infinities, zeros and NaNs
 * among others, the smallest. A NaN is a quiet one where QUIET says so. */
static uint32_t some_bits(uint32_t kind)
{
    static const uint32_t special[4] = {0x7F800000, 0, 0x7FC00000, 0x7FA00000};
    uint32_t drawn = draw();
    switch (kind) {
    case 0: break;
    case 1: drawn &= 0x807FFFFF; break;
    case 2: return bits_of((float)(int32_t)(drawn % 2001) - 1000);
    case 3: drawn = (drawn & 0x80FFFFFF) | 0x3F000000; break;
    case 4: drawn = (drawn & 0x87FFFFFF) | 0x30000000; break;
    case 5: drawn = below(8) ? (drawn & 0x80FFFFFF) | 0x3F000000 : (drawn & 0x80000000) | special[below(4)]; break;
    default: drawn = (drawn & 0x80FFFFFF) | 0x00800000; break;
    }
    return QUIET && is_nan(drawn) ? drawn | 0x400000 : drawn;
}

static void draw_floats(float *to, jambharrow_size count)
{
    const uint32_t kind = below(8);
    for (jambharrow_size i = 0; i < count; i++) {
        to[i] = of_bits(some_bits(kind == 7 ? below(7) : kind));
    }
}

/* A format of a stepped layer, and the bytes of its blocks. */
struct format {
    uint8_t byte;
    uint32_t size;
};

/* A format that is known, or now and then any byte. Its blocks are those of the call at hand. */
static uint8_t some_format_of(const struct format *formats, uint32_t count)
{
    const struct format *one = formats + below(count);
    size = one->size;
    return (uint8_t)(below(12) ? one->byte : draw());
}
#define some_format() some_format_of(formats, sizeof formats / sizeof *formats)

/* Packed blocks: any bytes, and most often scales of one kind. Q6_K has its scale last, the others first, and those of 256
 * values that of their minimums behind it. */
static void draw_blocks(uint8_t *to, jambharrow_size count)
{
    const uint32_t kind = below(4);
    for (jambharrow_size i = 0; i < count; i++) {
        to[i] = (uint8_t)draw();
    }
    for (jambharrow_size at = 0; kind && at + size <= count; at += size) {
        uint8_t *scale = to + at + (size == 210 ? 208 : 0);
        scale[1] = (uint8_t)(kind == 1 ? 0x20 : kind == 2 ? 0x80 : 0x30 + (scale[1] & 0x8F));
        if (size == 144 || size == 176) {
            scale[3] = scale[1];
        }
    }
}

/* Marks: most are open, or most are done, and now and then one is another byte. */
static void draw_marks(uint8_t *to, jambharrow_size count)
{
    const uint8_t most = (uint8_t)below(2);
    for (jambharrow_size i = 0; i < count; i++) {
        to[i] = below(16) ? most : (uint8_t)(below(2) ? !most : draw());
    }
}

/* An activation block of some readings, now and then damaged. */
static void draw_activation_block(void)
{
    x_len = below(3) ? 256 : below(257);
    draw_floats(x.floats, x_len);
    call_quantize_block_q8();
    switch (below(12)) {
    case 0: bsums[below(8)] += 1; break;
    case 1: qs[below(256)] ^= 1; break;
    case 2: d = of_bits(some_bits(below(7))); break;
    default: break;
    }
}

/* The digest of what a case leaves, and with what it starts. */
#define START 0xCBF29CE484222325u
static uint64_t digest = START;

static void eat(uint32_t word)
{
    digest = (digest ^ word) * 0x100000001B3u;
    digest ^= digest >> 29;
}

static void eat_float(float value)
{
    uint32_t its = bits_of(value);
    eat(is_nan(its) ? 0x7FC00000 : its);
}

static void eat_floats(const float *from, uint32_t count)
{
    for (uint32_t i = 0; i < count; i++) {
        eat_float(from[i]);
    }
}

/* Bytes by fours, of which there are whole ones. */
static void eat_bytes(const void *from, uint32_t count)
{
    for (uint32_t i = 0; i < count; i += 4) {
        uint32_t word;
        memcpy(&word, (const uint8_t *)from + i, 4);
        eat(word);
    }
}

static void stand_floats(float *to, uint32_t count)
{
    for (uint32_t i = 0; i < count; i++) {
        to[i] = STOOD_FLOAT;
    }
}

static void stand_bytes(void *to, uint32_t count)
{
    memset(to, STOOD_BYTE, count);
}

/* The line of a case of a call that never refuses. */
static void line(const char *name, unsigned number)
{
    printf("%s %u - %08" PRIX32 "%08" PRIX32 "\n", name, number, (uint32_t)(digest >> 32), (uint32_t)digest);
    digest = START;
}

/* The line of a case of a call that can. */
static void line_said(const char *name, unsigned number, uint32_t said)
{
    printf("%s %u %" PRIu32 " %08" PRIX32 "%08" PRIX32 "\n", name, number, said, (uint32_t)(digest >> 32), (uint32_t)digest);
    digest = START;
}

#include "cases.h"

/* Every binary16, and as many floats of every kind to binary16: a line for each 4,096. */
static void halves(void)
{
    for (uint32_t i = 0; i < 0x10000; i++) {
        half = (uint16_t)i;
        eat_float(call_f16_to_f32());
        bits = some_bits(below(7));
        eat(call_f32_to_f16());
        eat(how);
        if (i % 4096 == 4095) {
            line("halves", i / 4096);
        }
    }
}

int main(void)
{
    halves();
    for (unsigned i = 0; i < sizeof cases / sizeof *cases; i++) {
        for (unsigned k = 0; k < CASES; k++) {
            cases[i](k);
        }
    }
    return 0;
}
