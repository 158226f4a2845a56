// The registers of the float environment, for the checks: read, set, and the bits in them that can be changed.
#include <stdint.h>

// A state is one number: on x86-64 MXCSR and above it the x87 control word, on Arm FPCR and above it FPSR.
typedef uint64_t state;

#if defined(__x86_64__)
#define DEFAULT (0x1F80 | (state)0x037F << 32)
#define FLUSH ((state)1 << 15)
#define TRAPS ((state)0x3F << 7)
#define ROUNDING ((state)3 << 13)
// rounding in the order of its two bits
static const char *const roundings[] = {"to nearest", "down", "up", "to zero"};
// what is turned round, by itself and with all others: each mask, both kinds of flushing, rounding, and all flags together
static const state varied[] = {1 << 6, 1 << 7, 1 << 8, 1 << 9, 1 << 10, 1 << 11, 1 << 12, 1 << 13, 1 << 14, 1 << 15, 0x3F};
// the old unit's rounding, precision and masks, with flush-to-zero
static const state varied_more[] = {1 << 15, (state)1 << 42, (state)2 << 42, (state)3 << 40, (state)0x3F << 32};

static inline state get(void) {
    uint32_t sse;
    uint16_t old;
    __asm__ volatile("stmxcsr %0\n\tfnstcw %1" : "=m"(sse), "=m"(old) : : "memory");
    return sse | (state)old << 32;
}

static inline void set(state s) {
    uint32_t sse = (uint32_t)s;
    uint16_t old = (uint16_t)(s >> 32);
    __asm__ volatile("ldmxcsr %0\n\tfldcw %1" : : "m"(sse), "m"(old) : "memory");
}

static inline int traps(state s) { return (s & TRAPS) != TRAPS; }
#elif defined(__aarch64__)
#define DEFAULT ((state)0)
#define FLUSH ((state)1 << 24)
#define TRAPS ((state)0x9F00)
#define ROUNDING ((state)3 << 22)
static const char *const roundings[] = {"to nearest", "up", "down", "to zero"};
// rounding, flushing (also of halves, and of inputs where the machine has that), NaNs, halves' format, traps and flags
static const state varied[] = {1, 2, 4, 0x9F00, 1 << 19, 1 << 22, 1 << 23, 1 << 24, 1 << 25, 1 << 26, (state)0x800009F << 32};
static const state varied_more[] = {1 << 24};

static inline state get(void) {
    uint64_t control, flags;
    __asm__ volatile("mrs %0, fpcr\n\tmrs %1, fpsr" : "=r"(control), "=r"(flags) : : "memory");
    return control | flags << 32;
}

static inline void set(state s) {
    __asm__ volatile("msr fpsr, %1\n\tmsr fpcr, %0" : : "r"(s & 0xFFFFFFFF), "r"(s >> 32) : "memory");
}

static inline int traps(state s) { return (s & TRAPS) != 0; }
#endif

// Whether the machine keeps a state as it is set; some Arm machines have no traps.
static inline int kept(state s) {
    set(s);
    state now = get();
    set(DEFAULT);
    return now == s;
}
