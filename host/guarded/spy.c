// Stands between the guard and the entries (ld --wrap), counts the calls that come through, and sees what they bring: no null pointer, aligned counts, and,
// where the entry has floats, the default float environment.
#include "../besticoro.h"
#include "floats.h"

unsigned spy_calls, spy_wrong;

// One call, and the pointers that it brings.
static void look_at_parts(const void *const *parts, unsigned n) {
    spy_calls++;
    for (unsigned i = 0; i < n; i++)
        if (!parts[i]) spy_wrong++;
}

static void look(const void *const *parts, unsigned n) {
    look_at_parts(parts, n);
    // the control bits alone: on Arm the flags of the host still stand
    if ((uint32_t)get() != (uint32_t)DEFAULT) spy_wrong++;
}

static void look_at_counts(const uint64_t *counts) {
    if ((uintptr_t)counts % 8 != 0) spy_wrong++;
}

uint64_t __real_play_access_log(const uint8_t *log, size_t log_length, uint8_t *out, size_t out_length);
uint64_t __wrap_play_access_log(const uint8_t *log, size_t log_length, uint8_t *out, size_t out_length) {
    const void *parts[] = {log, out};
    look(parts, 2);
    return __real_play_access_log(log, log_length, out, out_length);
}

uint64_t __real_play_access_log_counted(const uint8_t *log, size_t log_length, uint8_t *out, size_t out_length, uint64_t *counts, size_t counts_length);
uint64_t __wrap_play_access_log_counted(const uint8_t *log, size_t log_length, uint8_t *out, size_t out_length, uint64_t *counts, size_t counts_length) {
    const void *parts[] = {log, out, counts};
    look(parts, 3), look_at_counts(counts);
    return __real_play_access_log_counted(log, log_length, out, out_length, counts, counts_length);
}

uint64_t __real_make_image(uint8_t start, uint8_t *image, size_t image_length);
uint64_t __wrap_make_image(uint8_t start, uint8_t *image, size_t image_length) {
    const void *parts[] = {image};
    look(parts, 1);
    return __real_make_image(start, image, image_length);
}

uint64_t __real_play_from_image(const uint8_t *image, size_t image_length, const uint8_t *log, size_t log_length,
    uint8_t *out, size_t out_length, uint8_t *after, size_t after_length);
uint64_t __wrap_play_from_image(const uint8_t *image, size_t image_length, const uint8_t *log, size_t log_length,
    uint8_t *out, size_t out_length, uint8_t *after, size_t after_length) {
    const void *parts[] = {image, log, out, after};
    look(parts, 4);
    return __real_play_from_image(image, image_length, log, log_length, out, out_length, after, after_length);
}

uint64_t __real_play_from_image_counted(const uint8_t *image, size_t image_length, const uint8_t *log, size_t log_length,
    uint8_t *out, size_t out_length, uint8_t *after, size_t after_length, uint64_t *counts, size_t counts_length);
uint64_t __wrap_play_from_image_counted(const uint8_t *image, size_t image_length, const uint8_t *log, size_t log_length,
    uint8_t *out, size_t out_length, uint8_t *after, size_t after_length, uint64_t *counts, size_t counts_length) {
    const void *parts[] = {image, log, out, after, counts};
    look(parts, 5), look_at_counts(counts);
    return __real_play_from_image_counted(image, image_length, log, log_length, out, out_length, after, after_length, counts, counts_length);
}

uint64_t __real_import_vgm(const uint8_t *vgm, size_t vgm_length, uint8_t *log, size_t log_length);
uint64_t __wrap_import_vgm(const uint8_t *vgm, size_t vgm_length, uint8_t *log, size_t log_length) {
    const void *parts[] = {vgm, log};
    look_at_parts(parts, 2);
    return __real_import_vgm(vgm, vgm_length, log, log_length);
}
