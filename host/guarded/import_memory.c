// import_memory: lends the guarded import memory of every kind and files of every answer, and sees that it refuses or imports as besticoro.h says and touches
// nothing else. Built with SPY and linked with spy.c it also sees that a refused call does not reach the entry, and what reaches it. Returns 1 where anything
// differs.
#include "../besticoro.h"
#include "floats.h"
#include "vgm.h"
#include <stdio.h>
#include <string.h>

#ifdef SPY
extern unsigned spy_calls, spy_wrong;
#endif

enum { ARENA = 1024, VGM = 0, LOG, PARTS };
#define REFUSED ((uint64_t)0xFFFF << 48)
#define BAD_HEADER ((uint64_t)9 << 48)
#define NO_ROOM (((uint64_t)6 << 48) + VGM_LOG_BYTES)
#define A(offset) ((uintptr_t)words + (offset))

static const char *const names[PARTS] = {"file", "log"};
static uint64_t words[ARENA / 8];
static size_t cases, wrong;

// Where the parts are lent, and their lengths; the file's bytes are put where it is lent.
struct lent {
    uintptr_t at[PARTS];
    size_t length[PARTS], bytes;
    const uint8_t *file;
};

// Both apart, each as long as it is used.
static struct lent apart(void) {
    struct lent l = {{A(128), A(768)}, {VGM_BYTES, VGM_LOG_BYTES}, VGM_BYTES, vgm_file};
    return l;
}

static void copy(uint8_t *arena, uintptr_t at, const void *from, size_t length) {
    if (at >= A(0) && at < A(ARENA) && length <= A(ARENA) - at) memcpy(arena + (at - A(0)), from, length);
}

// The arena before a call: filled, with the file where it is lent.
static void fill(uint8_t *arena, const struct lent *l) {
    memset(arena, 0xEE, ARENA);
    copy(arena, l->at[VGM], l->file, l->bytes);
}

// One call in a float state of the host's, which no import may change: the answer, the state after it, all memory, and what the spy saw.
static void one(const char *what, struct lent l, uint64_t wanted) {
    uint8_t after[ARENA];
    state before = (DEFAULT | FLUSH | ROUNDING), now;
    fill((uint8_t *)words, &l);
    fill(after, &l);
    if (wanted == VGM_LOG_BYTES) copy(after, l.at[LOG], vgm_log, VGM_LOG_BYTES);
#ifdef SPY
    unsigned calls = spy_calls;
#endif
    set(before);
    uint64_t answer = besticoro_import_vgm((const uint8_t *)l.at[VGM], l.length[VGM], (uint8_t *)l.at[LOG], l.length[LOG]);
    now = get();
    set(DEFAULT);
    int right = answer == wanted && now == before && memcmp(words, after, ARENA) == 0;
#ifdef SPY
    right = right && spy_calls == calls + (wanted != REFUSED) && spy_wrong == 0;
    spy_wrong = 0;
#endif
    cases++;
    if (!right) wrong++, printf("WRONG: %s: answer %llx\n", what, (unsigned long long)answer);
}

// A part with another place and length, the other one apart.
static void changed(const char *what, int part, uintptr_t at, size_t length, uint64_t wanted) {
    char words_of_it[128];
    struct lent l = apart();
    l.at[part] = at, l.length[part] = length;
    snprintf(words_of_it, sizeof words_of_it, "%s: %s", names[part], what);
    one(words_of_it, l, wanted);
}

static void each_part(void) {
    // what a part without length comes to
    static const uint64_t without[PARTS] = {BAD_HEADER, NO_ROOM};
    one("apart", apart(), VGM_LOG_BYTES);
    for (int part = 0; part < PARTS; part++) {
        size_t length = apart().length[part];
        changed("null with a length", part, 0, length, REFUSED);
        changed("null with length 1", part, 0, 1, REFUSED);
        changed("null, length 0", part, 0, 0, without[part]);
        changed("length 0 at 1", part, 1, 0, without[part]);
        changed("length 0 at the top", part, UINTPTR_MAX, 0, without[part]);
        changed("length 0 within the other", part, apart().at[1 - part] + 20, 0, without[part]);
        changed("SIZE_MAX", part, apart().at[part], SIZE_MAX, REFUSED);
        changed("PTRDIFF_MAX + 1", part, apart().at[part], (size_t)PTRDIFF_MAX + 1, REFUSED);
        changed("ends past the address space", part, UINTPTR_MAX - length + 2, length, REFUSED);
        changed("ends with the address space", part, UINTPTR_MAX - length + 1, length, REFUSED);
    }
    changed("a byte longer", LOG, A(768), VGM_LOG_BYTES + 1, VGM_LOG_BYTES);
    changed("a byte short", LOG, A(768), VGM_LOG_BYTES - 1, NO_ROOM);
    changed("at an odd place", LOG, A(769), VGM_LOG_BYTES, VGM_LOG_BYTES);
    changed("at an odd place", VGM, A(129), VGM_BYTES, VGM_LOG_BYTES);
    changed("PTRDIFF_MAX", LOG, A(768), PTRDIFF_MAX, VGM_LOG_BYTES);
    // a file may be of any length; this one ends after its first bytes, and the log stands below it
    struct lent longest = {{A(512), A(128)}, {PTRDIFF_MAX, VGM_LOG_BYTES}, VGM_BYTES, vgm_file};
    one("file: PTRDIFF_MAX", longest, VGM_LOG_BYTES);
}

static void overlaps(void) {
    const uintptr_t file = apart().at[VGM];
    changed("above the file, adjacent", LOG, file + VGM_BYTES, VGM_LOG_BYTES, VGM_LOG_BYTES);
    changed("below the file, adjacent", LOG, file - VGM_LOG_BYTES, VGM_LOG_BYTES, VGM_LOG_BYTES);
    changed("its first byte is the file's last", LOG, file + VGM_BYTES - 1, VGM_LOG_BYTES, REFUSED);
    changed("its last byte is the file's first", LOG, file - VGM_LOG_BYTES + 1, VGM_LOG_BYTES, REFUSED);
    changed("at the file", LOG, file, VGM_LOG_BYTES, REFUSED);
    changed("at the file, as long", LOG, file, VGM_BYTES, REFUSED);
    changed("within the file", LOG, file + 50, VGM_LOG_BYTES, REFUSED);
    changed("too short, within the file", LOG, file + 50, 1, REFUSED);
    changed("around the file", LOG, file - 8, VGM_BYTES + 16, REFUSED);
    changed("the file in what would be left alone", LOG, file - VGM_LOG_BYTES - 8, VGM_LOG_BYTES + 9, REFUSED);
}

// Refusals 9, 10 and 11 into a log with room.
static void refusals(void) {
    struct lent l = apart();
    static uint8_t file[VGM_DATA + 86 * 3 + 1] = {VGM_HEADER};
    l.length[VGM] = VGM_DATA - 1;
    one("a header cut short", l, BAD_HEADER);
    l.length[VGM] = VGM_BYTES - 1;
    one("no end", l, ((uint64_t)10 << 48) + VGM_BYTES - 1);
    l.length[VGM] = VGM_BYTES - 2;
    one("a command cut short", l, ((uint64_t)10 << 48) + VGM_DATA + 8);
    // 86 waits of 65,535 samples are 96 clock records each
    for (size_t i = VGM_DATA; i + 1 < sizeof file; i += 3) file[i] = 0x61, file[i + 1] = file[i + 2] = 0xFF;
    file[sizeof file - 1] = 0x66;
    l.file = file, l.bytes = l.length[VGM] = sizeof file;
    one("a log of more than 65,536 bytes", l, (uint64_t)11 << 48);
    l.length[VGM]--;
    one("the same without an end", l, ((uint64_t)10 << 48) + sizeof file - 1);
}

int main(void) {
    each_part();
    overlaps();
    refusals();
    printf("%zu calls with memory of every kind, %zu wrong\n", cases, wrong);
    return wrong != 0;
}
