// memory LOG: lends the guarded entries memory of every kind, logs/first.log among it, and sees that they refuse or play as besticoro.h says and touch nothing else.
// Built with SPY and linked with spy.c it also sees that a refused call does not reach the entry, and what reaches it. Returns 1 where anything differs.
#include "../besticoro.h"
#include "floats.h"
#include <stdio.h>
#include <string.h>

#ifdef SPY
extern unsigned spy_calls, spy_wrong;
#endif

enum { ARENA = 1024, LOG = 18, OUT = 4 };
#define REFUSED ((uint64_t)0xFFFF << 48)
#define NO_ROOM (((uint64_t)6 << 48) + OUT)
#define BAD_START ((uint64_t)4 << 48)
#define TOO_LONG ((uint64_t)3 << 48)
#define A(offset) ((uintptr_t)words + (offset))

static uint64_t words[ARENA / 8];
static uint8_t log_bytes[LOG];
static size_t cases, wrong;

struct lent {
    uintptr_t log;
    size_t log_length;
    uintptr_t out;
    size_t out_length;
    uintptr_t counts;
    size_t counts_length;
};

static int inside(uintptr_t at) { return at >= A(0) && at < A(ARENA); }

// The arena before a call: filled, with the log where it is lent.
static void fill(uint8_t *arena, const struct lent *l) {
    memset(arena, 0xEE, ARENA);
    if (inside(l->log)) memcpy(arena + (l->log - A(0)), log_bytes, LOG);
}

// The arena as it must be after a call that gave this answer.
static void expect(uint8_t *arena, const struct lent *l, int counted, uint64_t answer) {
    static const uint8_t made[OUT] = {0x52, 0x70, 0x52, 0xF0};
    static const uint64_t numbers[3] = {0, 0, 3};
    fill(arena, l);
    if (answer != OUT) return;
    memcpy(arena + (l->out - A(0)), made, OUT);
    if (counted && l->counts_length >= 3) memcpy(arena + (l->counts - A(0)), numbers, sizeof numbers);
}

static void one(const char *what, const struct lent *l, int counted, uint64_t wanted) {
    uint8_t after[ARENA];
    const uint8_t *log = (const uint8_t *)l->log;
    uint8_t *out = (uint8_t *)l->out;
    state before = (DEFAULT | FLUSH | ROUNDING), now;
    fill((uint8_t *)words, l);
    expect(after, l, counted, wanted);
#ifdef SPY
    unsigned calls = spy_calls;
#endif
    set(before);
    uint64_t answer = counted ? besticoro_play_access_log_counted(log, l->log_length, out, l->out_length, (uint64_t *)l->counts, l->counts_length)
                              : besticoro_play_access_log(log, l->log_length, out, l->out_length);
    now = get();
    set(DEFAULT);
    int right = answer == wanted && now == before && memcmp(words, after, ARENA) == 0;
#ifdef SPY
    right = right && spy_calls == calls + (wanted != REFUSED) && spy_wrong == 0;
    spy_wrong = 0;
#endif
    cases++;
    if (!right) wrong++, printf("WRONG: %s%s: answer %llx\n", what, counted ? "" : " (not counted)", (unsigned long long)answer);
}

// A case for both entries; the one without counts where they are not what it is about.
static void both(const char *what, uintptr_t log, size_t log_length, uintptr_t out, size_t out_length, uint64_t wanted) {
    struct lent l = {log, log_length, out, out_length, A(512), 3};
    one(what, &l, 0, wanted);
    one(what, &l, 1, wanted);
}

static void counted(const char *what, uintptr_t log, uintptr_t out, uintptr_t counts, size_t counts_length, uint64_t wanted) {
    struct lent l = {log, LOG, out, OUT, counts, counts_length};
    one(what, &l, 1, wanted);
}

static void nulls(void) {
    both("apart", A(64), LOG, A(128), OUT, OUT);
    both("null log with a length", 0, LOG, A(128), OUT, REFUSED);
    both("null log with length 1", 0, 1, A(128), OUT, REFUSED);
    both("null log, length 0", 0, 0, A(128), OUT, BAD_START);
    both("null output with a length", A(64), LOG, 0, OUT, REFUSED);
    both("null output with length 1", A(64), LOG, 0, 1, REFUSED);
    both("null output, length 0", A(64), LOG, 0, 0, NO_ROOM);
    both("null log and output, length 0", 0, 0, 0, 0, BAD_START);
    counted("null counts with a length", A(64), A(128), 0, 3, REFUSED);
    counted("null counts with length 1", A(64), A(128), 0, 1, REFUSED);
    counted("null counts, length 0", A(64), A(128), 0, 0, OUT);
}

static void overlaps(void) {
    both("output after the log, adjacent", A(64), LOG, A(64 + LOG), OUT, OUT);
    both("output before the log, adjacent", A(64), LOG, A(64 - OUT), OUT, OUT);
    both("output's first byte is the log's last", A(64), LOG, A(64 + LOG - 1), OUT, REFUSED);
    both("output's last byte is the log's first", A(64), LOG, A(64 - OUT + 1), OUT, REFUSED);
    both("output at the log", A(64), LOG, A(64), OUT, REFUSED);
    both("output at the log, as long", A(64), LOG, A(64), LOG, REFUSED);
    both("output within the log", A(64), LOG, A(70), OUT, REFUSED);
    both("log within the output", A(64), LOG, A(60), 64, REFUSED);
    counted("counts after the output, adjacent", A(64), A(256 - OUT), A(256), 3, OUT);
    counted("counts before the output, adjacent", A(64), A(256 + 24), A(256), 3, OUT);
    counted("counts' first byte is the output's last", A(64), A(256 - OUT + 1), A(256), 3, REFUSED);
    counted("counts' last byte is the output's first", A(64), A(256 + 23), A(256), 3, REFUSED);
    counted("counts after the log, adjacent", A(256 - LOG), A(128), A(256), 3, OUT);
    counted("counts before the log, adjacent", A(256 + 24), A(128), A(256), 3, OUT);
    counted("counts' first byte is the log's last", A(256 - LOG + 1), A(128), A(256), 3, REFUSED);
    counted("counts' last byte is the log's first", A(256 + 23), A(128), A(256), 3, REFUSED);
    counted("the log in counts that are left alone", A(256 + 24), A(128), A(256), 4, REFUSED);
    counted("counts too few, at the output", A(64), A(128), A(128), 1, REFUSED);
}

static void no_length(void) {
    both("output without length within the log", A(64), LOG, A(70), 0, NO_ROOM);
    both("output without length at 1", A(64), LOG, 1, 0, NO_ROOM);
    both("output without length at the top", A(64), LOG, UINTPTR_MAX, 0, NO_ROOM);
    both("log without length within the output", A(130), 0, A(128), 64, BAD_START);
    both("log without length at the top", UINTPTR_MAX, 0, A(128), OUT, BAD_START);
    counted("counts without length within the log", A(64), A(128), A(72), 0, OUT);
    counted("counts without length within the output", A(64), A(128), A(128), 0, OUT);
    counted("counts without length, misaligned", A(64), A(128), A(257), 0, OUT);
    counted("one count is left alone", A(64), A(128), A(256), 1, OUT);
    counted("two counts are left alone", A(64), A(128), A(256), 2, OUT);
    counted("the fourth count is left alone", A(64), A(128), A(256), 4, OUT);
}

static void tops(void) {
    const size_t most = PTRDIFF_MAX, eighth = (size_t)1 << 60;
    both("log of SIZE_MAX bytes", A(64), SIZE_MAX, A(32), OUT, REFUSED);
    both("log of PTRDIFF_MAX + 1 bytes", A(64), most + 1, A(32), OUT, REFUSED);
    both("log that ends past the address space", UINTPTR_MAX - LOG + 2, LOG, A(128), OUT, REFUSED);
    both("log that ends with the address space", UINTPTR_MAX - LOG + 1, LOG, A(128), OUT, REFUSED);
    both("output of SIZE_MAX bytes", A(64), LOG, A(128), SIZE_MAX, REFUSED);
    both("output of PTRDIFF_MAX + 1 bytes", A(64), LOG, A(128), most + 1, REFUSED);
    both("output that ends past the address space", A(64), LOG, UINTPTR_MAX - OUT + 2, OUT, REFUSED);
    both("output that ends with the address space", A(64), LOG, UINTPTR_MAX - OUT + 1, OUT, REFUSED);
    both("output that ends a byte before it, too short", A(64), LOG, UINTPTR_MAX - OUT + 1, OUT - 1, NO_ROOM);
    struct lent longest_log = {A(64), most, A(32), OUT, A(0), 3}, longest_out = {A(64), LOG, A(128), most, A(0), 3};
    one("log of PTRDIFF_MAX bytes", &longest_log, 0, TOO_LONG);
    one("log of PTRDIFF_MAX bytes", &longest_log, 1, TOO_LONG);
    one("output of PTRDIFF_MAX bytes", &longest_out, 0, OUT);
    one("output of PTRDIFF_MAX bytes", &longest_out, 1, OUT);
    counted("2^61 counts", A(64), A(128), A(256), 2 * eighth, REFUSED);
    counted("2^61 + 3 counts", A(64), A(128), A(256), 2 * eighth + 3, REFUSED);
    counted("2^62 counts", A(64), A(128), A(256), 4 * eighth, REFUSED);
    counted("SIZE_MAX counts", A(64), A(128), A(256), SIZE_MAX, REFUSED);
    counted("2^60 counts", A(64), A(128), A(256), eighth, REFUSED);
    counted("2^60 - 1 counts", A(64), A(128), A(256), eighth - 1, OUT);
    counted("a count that ends with the address space", A(64), A(128), UINTPTR_MAX - 7, 1, REFUSED);
    counted("two that end past it", A(64), A(128), UINTPTR_MAX - 7, 2, REFUSED);
    counted("a count before the last", A(64), A(128), UINTPTR_MAX - 15, 1, OUT);
    for (uintptr_t off = 1; off < 8; off++) counted("misaligned counts", A(64), A(128), A(256 + off), 3, REFUSED);
}

// The lent envelope: null, flags, and that a good one is triggered.
static void envelopes(void) {
    struct besticoro_envelope e = {9, 2, 1, 3, 0, 0}, flag = {9, 2, 2, 3, 0, 0}, run = {9, 2, 1, 3, 255, 0}, e2;
    struct { struct besticoro_envelope *e; uint64_t wanted; } rows[] = {{NULL, REFUSED}, {&flag, REFUSED}, {&run, REFUSED}, {&e, 0}};
    for (size_t i = 0; i < 4; i++) {
        if (rows[i].e) e2 = *rows[i].e;
        int right = besticoro_envelope_clock(rows[i].e) == rows[i].wanted;
        if (rows[i].e == &e) right = right && e.counter == 3 && e.current_volume == 2, e2 = e;
        right = right && besticoro_envelope_trigger(rows[i].e) == rows[i].wanted;
        if (rows[i].e == &e) right = right && e.current_volume == 9 && e.envelope_can_run == 1 && e.counter == 3;
        else if (rows[i].e) right = right && memcmp(rows[i].e, &e2, sizeof e2) == 0;
        cases += 2;
        if (!right) wrong++, printf("WRONG: envelope %zu\n", i);
    }
}

int main(int argc, char **argv) {
    FILE *file = argc > 1 ? fopen(argv[1], "rb") : NULL;
    if (!file || fread(log_bytes, 1, LOG, file) != LOG) return printf("memory LOG\n"), 2;
    fclose(file);
    nulls();
    overlaps();
    no_length();
    tops();
    envelopes();
    printf("%zu calls with memory of every kind, %zu wrong\n", cases, wrong);
    return wrong != 0;
}
