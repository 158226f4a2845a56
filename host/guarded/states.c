// states FOLDER: plays the folder's residue logs, and logs on the images that they leave, in every state of the float environment. The guarded entries
// must give the original's bytes and images and leave the state as it was; the unguarded ones must give others with flush-to-zero and with each directed
// rounding, so that the comparison can fail. An import, which has no floats and no guard of them, must give its log and leave the state too. Returns 1 where
// that is not so.
#include "../besticoro.h"
#include "floats.h"
#include "files.h"
#include "vgm.h"

static struct bytes log_bytes, original;
// the original's state after that log, with what fades in it; a log to play on it, what that makes, and the state after it
static struct bytes image, later, later_original, later_image;
static uint8_t *out, after_image[BESTICORO_IMAGE_BYTES], imported[VGM_LOG_BYTES];
static uint64_t counts[3], wanted_counts[3], later_counts[3];
static size_t states, wrong;

// The entries: the plain ones, then their guarded twins.
enum entry { PLAIN, PLAIN_FROM_IMAGE, GUARDED, COUNTED, FROM_IMAGE, FROM_IMAGE_COUNTED, MAKE, IMPORT, ENTRIES };

static int from_image(enum entry which) { return which == PLAIN_FROM_IMAGE || which == FROM_IMAGE || which == FROM_IMAGE_COUNTED; }

// One call in a state, and the state after it. No float arithmetic is done here while the state stands.
static __attribute__((noinline)) uint64_t call(state s, enum entry which, state *after) {
    const size_t bytes = sizeof after_image, room = from_image(which) ? later_original.length : original.length;
    uint64_t answer = 0;
    set(s);
    switch (which) {
    case PLAIN: answer = play_access_log(log_bytes.at, log_bytes.length, out, room); break;
    case PLAIN_FROM_IMAGE: answer = play_from_image(image.at, bytes, later.at, later.length, out, room, after_image, bytes); break;
    case GUARDED: answer = besticoro_play_access_log(log_bytes.at, log_bytes.length, out, room); break;
    case COUNTED: answer = besticoro_play_access_log_counted(log_bytes.at, log_bytes.length, out, room, counts, 3); break;
    case FROM_IMAGE: answer = besticoro_play_from_image(image.at, bytes, later.at, later.length, out, room, after_image, bytes); break;
    case FROM_IMAGE_COUNTED:
        answer = besticoro_play_from_image_counted(image.at, bytes, later.at, later.length, out, room, after_image, bytes, counts, 3);
        break;
    case MAKE: answer = besticoro_make_image(log_bytes.at[1], after_image, bytes); break;
    default: answer = besticoro_import_vgm(vgm_file, VGM_BYTES, imported, VGM_LOG_BYTES); break;
    }
    *after = get();
    set(DEFAULT);
    return answer;
}

// Whether a call left what the original did: output, image and counts; or the file's log.
static int same(enum entry which, uint64_t answer, const uint8_t *fresh) {
    const struct bytes *wanted = from_image(which) ? &later_original : &original;
    if (which == MAKE) return answer == sizeof after_image && memcmp(after_image, fresh, sizeof after_image) == 0;
    if (which == IMPORT) return answer == sizeof imported && memcmp(imported, vgm_log, sizeof imported) == 0;
    if (answer != wanted->length || memcmp(out, wanted->at, wanted->length) != 0) return 0;
    if (which == COUNTED && memcmp(counts, wanted_counts, sizeof counts) != 0) return 0;
    if (which == FROM_IMAGE_COUNTED && memcmp(counts, later_counts, sizeof counts) != 0) return 0;
    return !from_image(which) || memcmp(after_image, later_image.at, sizeof after_image) == 0;
}

// The guarded entries in a state; ten wrong ones are enough.
static void guarded(state s) {
    static uint8_t fresh[BESTICORO_IMAGE_BYTES];
    make_image(log_bytes.at[1], fresh, sizeof fresh);
    if (wrong >= 10) return;
    states++;
    for (enum entry which = GUARDED; which < ENTRIES; which++) {
        state after;
        memset(out, 0xEE, original.length);
        memset(after_image, 0xEE, sizeof after_image);
        memset(counts, 0xEE, sizeof counts);
        memset(imported, 0xEE, sizeof imported);
        uint64_t answer = call(s, which, &after);
        if (same(which, answer, fresh) && after == s) continue;
        wrong++, printf("WRONG: state %llx, entry %d: answer %llx, state after %llx\n", (unsigned long long)s, which, (unsigned long long)answer,
            (unsigned long long)after);
    }
}

// Every way to turn round some of the bits given, those that the machine keeps.
static void every_state(const state *bits, size_t n) {
    for (unsigned long chosen = 0; chosen < 1ul << n; chosen++) {
        state s = DEFAULT;
        for (size_t i = 0; i < n; i++)
            if (chosen >> i & 1) s ^= bits[i];
        if (kept(s)) guarded(s);
    }
}

// The unguarded entry in a state without traps: the first byte that is another, or the output's length.
static size_t unguarded(state s, enum entry which) {
    state after;
    call(s, which, &after);
    return which == PLAIN ? first_difference(out, original.at, original.length) : first_difference(out, later_original.at, later_original.length);
}

// What the guard is for: each rounding, with and without flush-to-zero (and on x86-64 denormals-are-zero, bit 6).
static void show_unguarded(enum entry which, const char *name, size_t whole) {
    for (state r = 0; r < 4; r++) {
        state s = DEFAULT | r * (ROUNDING & -ROUNDING);
        size_t plain = unguarded(s, which), flushed = unguarded(s | FLUSH, which);
        printf("unguarded%s, rounding %s: other bytes from %zu of %zu on; with flush-to-zero from %zu on\n", name, roundings[r], plain, whole, flushed);
        if ((r == 0 ? plain != whole : plain == whole) || flushed == whole) wrong++, printf("WRONG: that is not what it must show\n");
    }
#if defined(__x86_64__)
    size_t denormals = unguarded(DEFAULT | 1 << 6, which), both = unguarded(DEFAULT | 1 << 6 | FLUSH, which);
    printf("unguarded%s, denormals-are-zero: other bytes from %zu on; with flush-to-zero too from %zu on\n", name, denormals, both);
#endif
}

static int read_all(const char *folder, int number) {
    struct { struct bytes *at; const char *kind; } files[] = {
        {&log_bytes, "log"}, {&original, "bytes"}, {&image, "image"}, {&later, "later"}, {&later_original, "later_bytes"}, {&later_image, "later_image"}};
    for (size_t i = 0; i < sizeof files / sizeof *files; i++) {
        *files[i].at = read_file(folder, number, files[i].kind);
        if (!files[i].at->at) return 0;
    }
    return image.length == BESTICORO_IMAGE_BYTES && later_image.length == BESTICORO_IMAGE_BYTES && later_original.length <= original.length;
}

int main(int argc, char **argv) {
    int logs = 0;
    if (argc != 2 || get() != DEFAULT) return printf("states FOLDER, started in the default float environment\n"), 2;
    for (; read_all(argv[1], logs); logs++) {
        out = malloc(original.length);
        play_access_log_counted(log_bytes.at, log_bytes.length, out, original.length, wanted_counts, 3);
        play_from_image_counted(image.at, image.length, later.at, later.length, out, later_original.length, after_image, sizeof after_image, later_counts, 3);
        show_unguarded(PLAIN, "", original.length);
        show_unguarded(PLAIN_FROM_IMAGE, " from an image", later_original.length);
        every_state(varied, sizeof varied / sizeof *varied);
        every_state(varied_more, sizeof varied_more / sizeof *varied_more);
    }
    if (logs == 0) return printf("there is no residue log in %s\n", argv[1]), 2;
    printf("%d logs, each in %zu states, by all six guarded entries: %zu wrong\n", logs, states / logs, wrong);
    return wrong != 0;
}
