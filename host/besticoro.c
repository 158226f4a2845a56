/* The guarded twins of the entries: what is lent is judged, and the default float environment stands around the call. See besticoro.h.
 * A new entry takes one function here: its parts in a row, lend, and, where it has floats, enter and leave around the call. */
#include "besticoro.h"

#define REFUSED ((uint64_t)BESTICORO_BAD_MEMORY << 48)

/* ---- the float environment: the registers themselves, since fenv.h says nothing of flush-to-zero. As asm with "memory" these
 * stay on their sides of the call; the entries are other objects' functions, so nothing of them can move either. */
#if defined(__x86_64__)
/* The entries have no x87 instruction (host/library sees to it), so MXCSR is all there is. */
typedef uint32_t floats;
enum { DEFAULT_FLOATS = 0x1F80 }; /* to nearest, subnormals kept, every exception masked, no flag set */

static inline floats enter(void) {
    floats host, plain = DEFAULT_FLOATS;
    __asm__ volatile("stmxcsr %0" : "=m"(host) : : "memory");
    __asm__ volatile("ldmxcsr %0" : : "m"(plain) : "memory");
    return host;
}

static inline void leave(floats host) {
    __asm__ volatile("ldmxcsr %0" : : "m"(host) : "memory");
}
#elif defined(__aarch64__)
typedef struct { uint64_t control, flags; } floats; /* FPCR and FPSR */

static inline floats enter(void) {
    floats host;
    __asm__ volatile("mrs %0, fpcr" : "=r"(host.control) : : "memory");
    __asm__ volatile("mrs %0, fpsr" : "=r"(host.flags) : : "memory");
    __asm__ volatile("msr fpcr, xzr" : : : "memory");
    return host;
}

static inline void leave(floats host) {
    __asm__ volatile("msr fpsr, %0" : : "r"(host.flags) : "memory");
    __asm__ volatile("msr fpcr, %0" : : "r"(host.control) : "memory");
}
#else
#error "besticoro.c knows the float environment of x86-64 and of 64-bit Arm alone"
#endif

/* ---- lent memory */

/* A part: elements of one size, which is their alignment too. */
struct part {
    void *at;
    size_t count, size;
    int written;
};
#define READ(at, count) {(void *)(at), (count), sizeof *(at), 0}
#define WRITTEN(at, count) {(at), (count), sizeof *(at), 1}

/* Whether a part with elements is memory that there can be. */
static int lies(const struct part *p) {
    uintptr_t from = (uintptr_t)p->at;
    if (from == 0 || from % p->size != 0) return 0;
    if (p->count > PTRDIFF_MAX / p->size) return 0;
    return p->count * p->size <= UINTPTR_MAX - from;
}

/* Whether two parts that lie may be lent together: none of them written, or no byte in both. */
static int apart(const struct part *p, const struct part *q) {
    uintptr_t a = (uintptr_t)p->at, b = (uintptr_t)q->at;
    if (!p->written && !q->written) return 1;
    return a < b ? b - a >= p->count * p->size : a - b >= q->count * q->size;
}

/* Whether all can be lent. A part without elements overlaps nothing, and is given a place that is there. */
static int lend(struct part *parts, size_t n) {
    static uint64_t nowhere;
    for (size_t i = 0; i < n; i++) {
        if (parts[i].count == 0) continue;
        if (!lies(&parts[i])) return 0;
        for (size_t j = 0; j < i; j++)
            if (parts[j].count != 0 && !apart(&parts[i], &parts[j])) return 0;
    }
    for (size_t i = 0; i < n; i++)
        if (parts[i].count == 0) parts[i].at = &nowhere;
    return 1;
}

/* ---- the entries */

uint64_t besticoro_play_access_log(const uint8_t *log, size_t log_length, uint8_t *out, size_t out_length) {
    struct part lent[] = {READ(log, log_length), WRITTEN(out, out_length)};
    if (!lend(lent, 2)) return REFUSED;
    floats host = enter();
    uint64_t answer = play_access_log(lent[0].at, log_length, lent[1].at, out_length);
    leave(host);
    return answer;
}

uint64_t besticoro_play_access_log_counted(const uint8_t *log, size_t log_length, uint8_t *out, size_t out_length, uint64_t *counts, size_t counts_length) {
    struct part lent[] = {READ(log, log_length), WRITTEN(out, out_length), WRITTEN(counts, counts_length)};
    if (!lend(lent, 3)) return REFUSED;
    floats host = enter();
    uint64_t answer = play_access_log_counted(lent[0].at, log_length, lent[1].at, out_length, lent[2].at, counts_length);
    leave(host);
    return answer;
}

/* The unit's floats are patterns in an image: what reads and writes them stands in the default too. */
uint64_t besticoro_make_image(uint8_t start, uint8_t *image, size_t image_length) {
    struct part lent[] = {WRITTEN(image, image_length)};
    if (!lend(lent, 1)) return REFUSED;
    floats host = enter();
    uint64_t answer = make_image(start, lent[0].at, image_length);
    leave(host);
    return answer;
}

uint64_t besticoro_play_from_image(const uint8_t *image, size_t image_length, const uint8_t *log, size_t log_length,
    uint8_t *out, size_t out_length, uint8_t *after, size_t after_length) {
    struct part lent[] = {READ(image, image_length), READ(log, log_length), WRITTEN(out, out_length), WRITTEN(after, after_length)};
    if (!lend(lent, 4)) return REFUSED;
    floats host = enter();
    uint64_t answer = play_from_image(lent[0].at, image_length, lent[1].at, log_length, lent[2].at, out_length, lent[3].at, after_length);
    leave(host);
    return answer;
}

uint64_t besticoro_play_from_image_counted(const uint8_t *image, size_t image_length, const uint8_t *log, size_t log_length,
    uint8_t *out, size_t out_length, uint8_t *after, size_t after_length, uint64_t *counts, size_t counts_length) {
    struct part lent[] = {READ(image, image_length), READ(log, log_length), WRITTEN(out, out_length), WRITTEN(after, after_length),
        WRITTEN(counts, counts_length)};
    if (!lend(lent, 5)) return REFUSED;
    floats host = enter();
    uint64_t answer = play_from_image_counted(lent[0].at, image_length, lent[1].at, log_length, lent[2].at, out_length, lent[3].at, after_length,
        lent[4].at, counts_length);
    leave(host);
    return answer;
}

/* An import has no floats: the host's environment stands as it is. */
uint64_t besticoro_import_vgm(const uint8_t *vgm, size_t vgm_length, uint8_t *log, size_t log_length) {
    struct part lent[] = {READ(vgm, vgm_length), WRITTEN(log, log_length)};
    if (!lend(lent, 2)) return REFUSED;
    return import_vgm(lent[0].at, vgm_length, lent[1].at, log_length);
}

/* The lent envelope has no floats. */
static int usable(const struct besticoro_envelope *e) {
    return e != NULL && e->sweep_increase <= 1 && e->envelope_can_run <= 1;
}

uint64_t besticoro_envelope_trigger(struct besticoro_envelope *e) {
    if (!usable(e)) return REFUSED;
    envelope_trigger(e);
    return 0;
}

uint64_t besticoro_envelope_clock(struct besticoro_envelope *e) {
    if (!usable(e)) return REFUSED;
    envelope_clock(e);
    return 0;
}
