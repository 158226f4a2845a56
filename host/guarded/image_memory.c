// image_memory LOG: lends the guarded entries for images memory of every kind, logs/first.log among it, and sees that they refuse or play as besticoro.h
// says and touch nothing else. Built with SPY and linked with spy.c it also sees that a refused call does not reach the entry, and what reaches it.
// Returns 1 where anything differs.
#include "../besticoro.h"
#include "floats.h"
#include <stdio.h>
#include <string.h>

#ifdef SPY
extern unsigned spy_calls, spy_wrong;
#endif

enum { ARENA = 4096, LOG_BYTES = 18, MADE = 4, IMAGE = 0, LOG, OUT, AFTER, COUNTS, PARTS };
#define REFUSED ((uint64_t)0xFFFF << 48)
#define A(offset) ((uintptr_t)words + (offset))

static const char *const names[PARTS] = {"image", "log", "output", "place for the image", "counts"};
static uint64_t words[ARENA / 8];
static uint8_t log_bytes[LOG_BYTES], image[BESTICORO_IMAGE_BYTES], image_after[BESTICORO_IMAGE_BYTES];
static const uint64_t numbers[3] = {0, 0, 3};
static const uint8_t made[MADE] = {0x52, 0x70, 0x52, 0xF0};
static size_t cases, wrong;

// Where the parts are lent, and their lengths: in bytes, of counts in numbers.
struct lent {
    uintptr_t at[PARTS];
    size_t length[PARTS];
};

// All apart, each as long as it is used.
static struct lent apart(void) {
    struct lent l = {{A(512), A(1024), A(1536), A(2048), A(2560)}, {BESTICORO_IMAGE_BYTES, LOG_BYTES, MADE, BESTICORO_IMAGE_BYTES, 3}};
    return l;
}

static size_t bytes(const struct lent *l, int part) { return l->length[part] * (part == COUNTS ? 8 : 1); }

static void copy(uint8_t *arena, uintptr_t at, const void *from, size_t length) {
    if (at >= A(0) && at < A(ARENA) && length <= A(ARENA) - at) memcpy(arena + (at - A(0)), from, length);
}

// The arena before a call: filled, with the image and the log where they are lent.
static void fill(uint8_t *arena, const struct lent *l) {
    memset(arena, 0xEE, ARENA);
    copy(arena, l->at[IMAGE], image, sizeof image);
    // a log of two bytes is the image's own front
    if (l->length[LOG] != 2) copy(arena, l->at[LOG], log_bytes, LOG_BYTES);
}

// The arena as it must be after a call that gave this answer; a log of two bytes makes nothing.
static void expect(uint8_t *arena, const struct lent *l, int counted, uint64_t answer) {
    static const uint64_t none[3];
    fill(arena, l);
    if (answer >> 48 != 0) return;
    copy(arena, l->at[OUT], made, answer);
    copy(arena, l->at[AFTER], answer ? image_after : image, sizeof image);
    if (counted && l->length[COUNTS] >= 3) copy(arena, l->at[COUNTS], answer ? numbers : none, sizeof none);
}

static uint64_t call(const struct lent *l, int counted) {
    const uint8_t *from = (const uint8_t *)l->at[IMAGE], *log = (const uint8_t *)l->at[LOG];
    uint8_t *out = (uint8_t *)l->at[OUT], *after = (uint8_t *)l->at[AFTER];
    const size_t *n = l->length;
    return counted ? besticoro_play_from_image_counted(from, n[IMAGE], log, n[LOG], out, n[OUT], after, n[AFTER], (uint64_t *)l->at[COUNTS], n[COUNTS])
                   : besticoro_play_from_image(from, n[IMAGE], log, n[LOG], out, n[OUT], after, n[AFTER]);
}

// What came of a call in a float state of the host's: the answer, the state after it, all memory, and what the spy saw.
static void judge(const char *what, const char *who, uint64_t answer, uint64_t wanted, int stood, const uint8_t *arena, unsigned came_through) {
    int right = answer == wanted && stood && memcmp(words, arena, ARENA) == 0;
#ifdef SPY
    right = right && came_through == (wanted != REFUSED) && spy_wrong == 0;
    spy_wrong = 0;
#else
    (void)came_through;
#endif
    cases++;
    if (!right) wrong++, printf("WRONG: %s (%s): answer %llx\n", what, who, (unsigned long long)answer);
}

static unsigned calls(void) {
#ifdef SPY
    return spy_calls;
#else
    return 0;
#endif
}

static void one(const char *what, struct lent l, int counted, uint64_t wanted) {
    uint8_t arena[ARENA];
    state before = (DEFAULT | FLUSH | ROUNDING), now;
    fill((uint8_t *)words, &l);
    expect(arena, &l, counted, wanted);
    unsigned came = calls();
    set(before);
    uint64_t answer = call(&l, counted);
    now = get();
    set(DEFAULT);
    judge(what, counted ? "counted" : "not counted", answer, wanted, now == before, arena, calls() - came);
}

static void both(const char *what, struct lent l, uint64_t wanted) {
    one(what, l, 0, wanted);
    one(what, l, 1, wanted);
}

// A part with another place and length, all others apart. Counts are lent by one entry alone.
static void changed(const char *what, int part, uintptr_t at, size_t length, uint64_t wanted) {
    char words_of_it[128];
    struct lent l = apart();
    l.at[part] = at, l.length[part] = length;
    snprintf(words_of_it, sizeof words_of_it, "%s: %s", names[part], what);
    if (part != COUNTS) one(words_of_it, l, 0, wanted);
    one(words_of_it, l, 1, wanted);
}

// What a part without length comes to.
static const uint64_t without[PARTS] = {(uint64_t)7 << 48, (uint64_t)4 << 48, ((uint64_t)6 << 48) + MADE, ((uint64_t)8 << 48) + BESTICORO_IMAGE_BYTES, MADE};

static void each_part(void) {
    both("apart", apart(), MADE);
    for (int part = 0; part < PARTS; part++) {
        size_t length = apart().length[part], size = part == COUNTS ? 8 : 1, room = length * size;
        changed("null with a length", part, 0, length, REFUSED);
        changed("null with length 1", part, 0, 1, REFUSED);
        changed("null, length 0", part, 0, 0, without[part]);
        changed("length 0 at the top", part, UINTPTR_MAX, 0, without[part]);
        changed("length 0 within another", part, apart().at[(part + 1) % PARTS], 0, without[part]);
        changed("SIZE_MAX", part, apart().at[part], SIZE_MAX, REFUSED);
        changed("PTRDIFF_MAX + 1 bytes", part, apart().at[part], (size_t)PTRDIFF_MAX / size + 1, REFUSED);
        changed("ends with the address space", part, (UINTPTR_MAX - room + 1) / 8 * 8, ((UINTPTR_MAX - (UINTPTR_MAX - room + 1) / 8 * 8) / size) + 1, REFUSED);
    }
    for (uintptr_t off = 1; off < 8; off++) changed("misaligned", COUNTS, A(2560 + off), 3, REFUSED);
    changed("longer", AFTER, A(2048), BESTICORO_IMAGE_BYTES + 1, MADE);
    changed("one byte short", AFTER, A(2048), BESTICORO_IMAGE_BYTES - 1, without[AFTER]);
    changed("one byte short", IMAGE, A(512), BESTICORO_IMAGE_BYTES - 1, without[IMAGE]);
    changed("one byte longer", IMAGE, A(512), BESTICORO_IMAGE_BYTES + 1, without[IMAGE]);
    changed("two are left alone", COUNTS, A(2560), 2, MADE);
}

// Two parts that touch, or share a byte; the one that is not counts is moved.
static void touch(int moved, int fixed, int above, int shared) {
    char what[128];
    struct lent l = apart();
    uint64_t wanted = shared ? REFUSED : MADE;
    // an image and a log that share a byte are both read, and the byte is the log's: what is played is another image
    if (shared && moved == IMAGE && fixed == LOG) return;
    l.at[moved] = above ? l.at[fixed] + bytes(&l, fixed) - shared : l.at[fixed] - bytes(&l, moved) + shared;
    snprintf(what, sizeof what, "%s %s the %s, %s", names[moved], above ? "above" : "below", names[fixed], shared ? "a byte in both" : "adjacent");
    if (fixed != COUNTS) one(what, l, 0, wanted);
    one(what, l, 1, wanted);
}

static void pair(int moved, int fixed) {
    for (int way = 0; way < 4; way++) touch(moved, fixed, way / 2, way % 2);
}

static void pairs(void) {
    for (int moved = 0; moved < PARTS; moved++)
        for (int fixed = moved + 1; fixed < PARTS; fixed++) pair(moved, fixed);
    // the image's first two bytes are a log without records: both are read, so they may be one
    struct lent l = apart();
    l.at[LOG] = l.at[IMAGE], l.length[LOG] = 2;
    both("the log is the image's front", l, 0);
    l = apart(), l.at[AFTER] = l.at[IMAGE];
    both("the new image in the old one's place", l, REFUSED);
    l = apart(), l.at[AFTER] = l.at[IMAGE] + 80, l.length[AFTER] = 4;
    both("a place too short within the image", l, REFUSED);
}

// A fresh image into memory of every kind.
static void make(const char *what, uint8_t start, uintptr_t at, size_t length, uint64_t wanted) {
    uint8_t arena[ARENA];
    state before = (DEFAULT | FLUSH | ROUNDING), now;
    memset(words, 0xEE, ARENA);
    memset(arena, 0xEE, ARENA);
    if (wanted == BESTICORO_IMAGE_BYTES) copy(arena, at, image, sizeof image);
    unsigned came = calls();
    set(before);
    uint64_t answer = besticoro_make_image(start, (uint8_t *)at, length);
    now = get();
    set(DEFAULT);
    judge(what, "make", answer, wanted, now == before, arena, calls() - came);
}

static void makes(void) {
    const uint64_t short_place = without[AFTER], bad_start = (uint64_t)4 << 48;
    make("a place", 1, A(512), BESTICORO_IMAGE_BYTES, BESTICORO_IMAGE_BYTES);
    make("a longer place", 1, A(513), BESTICORO_IMAGE_BYTES + 9, BESTICORO_IMAGE_BYTES);
    make("a byte short", 1, A(512), BESTICORO_IMAGE_BYTES - 1, short_place);
    make("length 0", 1, A(512), 0, short_place);
    make("null, length 0", 1, 0, 0, short_place);
    make("null with a length", 1, 0, BESTICORO_IMAGE_BYTES, REFUSED);
    make("null and a wrong start", 4, 0, BESTICORO_IMAGE_BYTES, REFUSED);
    make("a wrong start", 4, A(512), BESTICORO_IMAGE_BYTES, bad_start);
    make("a wrong start, length 0", 255, A(512), 0, bad_start);
    make("SIZE_MAX", 1, A(512), SIZE_MAX, REFUSED);
    make("PTRDIFF_MAX + 1", 1, A(512), (size_t)PTRDIFF_MAX + 1, REFUSED);
    make("PTRDIFF_MAX", 1, A(512), PTRDIFF_MAX, BESTICORO_IMAGE_BYTES);
    make("ends with the address space", 1, UINTPTR_MAX - BESTICORO_IMAGE_BYTES + 1, BESTICORO_IMAGE_BYTES, REFUSED);
}

int main(int argc, char **argv) {
    uint8_t out[MADE];
    FILE *file = argc > 1 ? fopen(argv[1], "rb") : NULL;
    if (!file || fread(log_bytes, 1, LOG_BYTES, file) != LOG_BYTES) return printf("image_memory LOG\n"), 2;
    fclose(file);
    if (make_image(1, image, sizeof image) != sizeof image) return printf("no image was made\n"), 1;
    if (play_from_image(image, sizeof image, log_bytes, LOG_BYTES, out, MADE, image_after, sizeof image) != MADE) return printf("the log was not played\n"), 1;
    each_part();
    pairs();
    makes();
    printf("%zu calls with memory of every kind, %zu wrong\n", cases, wrong);
    return wrong != 0;
}
