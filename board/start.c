/*
 * What a program needs on a bare Cortex-M with an FPU: the vectors, the way to main, and a standard
 * output, which is the debugger's (semihosting).
 */
#include <errno.h>
#include <stddef.h>
#include <stdint.h>
#include <sys/stat.h>

extern uint32_t stack_top[], data_at[], data_from[], data_to[], bss_from[], bss_to[];
int main(void);

/* Semihosting: the debugger does what `what` says. */
static int host(int what, const void *with)
{
    register int r0 __asm__("r0") = what;
    register const void *r1 __asm__("r1") = with;
    __asm__ volatile("bkpt 0xAB" : "+r"(r0) : "r"(r1) : "memory");
    return r0;
}

__attribute__((noreturn)) void _exit(int status)
{
    const uint32_t words[2] = {0x20026, (uint32_t)status}; /* ended by itself, with this status */
    host(0x20, words);
    for (;;) {
    }
}

int _write(int file, const char *from, int length)
{
    (void)file;
    char text[256];
    for (int at = 0; at < length;) {
        int n = 0;
        while (n < 255 && at < length) {
            text[n++] = from[at++];
        }
        text[n] = 0;
        host(0x04, text);
    }
    return length;
}

/* What printf of newlib asks for besides: a little room, and that the output is no file. */
void *_sbrk(ptrdiff_t more)
{
    static char room[8192] __attribute__((aligned(8)));
    static ptrdiff_t used;
    if (used + more > (ptrdiff_t)sizeof room) {
        errno = ENOMEM;
        return (void *)-1;
    }
    used += more;
    return room + used - more;
}

int _fstat(int file, struct stat *st)
{
    (void)file;
    st->st_mode = S_IFCHR;
    return 0;
}

int _isatty(int file)
{
    (void)file;
    return 1;
}

int _close(int file)
{
    (void)file;
    return -1;
}

int _lseek(int file, int to, int from)
{
    (void)file, (void)to, (void)from;
    return 0;
}

int _read(int file, char *to, int length)
{
    (void)file, (void)to, (void)length;
    return 0;
}

/* The FPU, before anything may use it: CP10 and CP11. */
static void turn_on_fpu(void)
{
    *(volatile uint32_t *)0xE000ED88 |= 0xFu << 20;
    __asm__ volatile("dsb\n isb" ::: "memory");
#ifdef PLANT_FLUSH
    /* A fault on purpose: FPSCR.FZ, by which subnormals are taken and given as zeros. */
    __asm__ volatile("vmsr fpscr, %0" ::"r"(1u << 24));
#endif
}

#ifdef PLANT_UNWIDENED
/* A fault on purpose: a short result with something left above it, as from a library whose module says nothing of
 * widening. The linker has this called in the place of f32_to_f16 (--wrap). */
__attribute__((naked)) void __wrap_jambharrow_f32_to_f16(void)
{
    __asm__("push {r4, lr}\n bl __real_jambharrow_f32_to_f16\n orr r0, r0, #0x10000\n pop {r4, pc}");
}
#endif

__attribute__((noreturn)) void reset(void)
{
    turn_on_fpu();
    uint32_t *from = data_at;
    for (uint32_t *to = data_from; to < data_to;) {
        *to++ = *from++;
    }
    for (uint32_t *to = bss_from; to < bss_to;) {
        *to++ = 0;
    }
    _exit(main());
}

/* A fault ends the program with its number: 3 HardFault, 6 UsageFault and so on. */
static void fault(void)
{
    uint32_t number;
    __asm__ volatile("mrs %0, ipsr" : "=r"(number));
    _write(1, "fault\n", 6);
    _exit(100 + (int)(number & 0xFF));
}

__attribute__((section(".vectors"), used)) static const void *const vectors[16] = {
    stack_top, (void *)reset, (void *)fault, (void *)fault, (void *)fault, (void *)fault, (void *)fault, (void *)fault,
    0, 0, 0, (void *)fault, (void *)fault, 0, (void *)fault, (void *)fault,
};
