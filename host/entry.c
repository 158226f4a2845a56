// Calls the C entries, by both names, on fresh units and on their images, on the logs and VGM files of host/make-answers, the first and the last two families
// of crates/replay/stdin, and compares with what stands there: refusal and number returned, and for a log that is played its frames, clock calls, records
// and bytes; no byte past those written, and no count with a refusal, may be touched. Then a VGM file cut at every length, the longest log, and their logs
// played. Returns 1 where anything differs.
#include "besticoro.h"
#include "guarded/vgm.h"
#include <stdio.h>
#include <stdlib.h>
#include <string.h>

typedef uint64_t plain(const uint8_t *, size_t, uint8_t *, size_t);
typedef uint64_t counting(const uint8_t *, size_t, uint8_t *, size_t, uint64_t *, size_t);
typedef uint64_t making(uint8_t, uint8_t *, size_t);
typedef uint64_t importing(const uint8_t *, size_t, uint8_t *, size_t);
typedef uint64_t from_image(const uint8_t *, size_t, const uint8_t *, size_t, uint8_t *, size_t, uint8_t *, size_t);
typedef uint64_t from_image_counting(const uint8_t *, size_t, const uint8_t *, size_t, uint8_t *, size_t, uint8_t *, size_t, uint64_t *, size_t);

enum { FILL = 0xEE, MOST = 65536, HEAD = 24, INPUT = 1 << 24 };
// how the names of those families begin
static const char OURS[] = "every kind of ";

static int all_filled(const void *from, const void *to) {
    for (const uint8_t *p = from; p < (const uint8_t *)to; p++)
        if (*p != FILL) return 0;
    return 1;
}

static uint64_t word(const uint8_t *p) {
    return (uint64_t)p[0] << 24 | (uint64_t)p[1] << 16 | (uint64_t)p[2] << 8 | p[3];
}

// What a head of crates/replay says, as crates/replay/src/expected.rt has it.
struct head {
    unsigned kind, refusal;
    size_t length, room, written;
    uint64_t number, counts[3];
};

static struct head head_at(const uint8_t *p) {
    struct head h = {p[0], p[1], p[2] * 256u + p[3], word(p + 8), p[1] ? 0 : word(p + 4), word(p + 4), {word(p + 12), word(p + 16), word(p + 20)}};
    return h;
}

// Whether an output has a digest, which stands in place of its bytes in kinds 2 and 4: two remainders of them, read as digits.
static int has_digest(const uint8_t *out, size_t n, const uint8_t *want) {
    uint64_t first = 0, second = 0;
    for (size_t i = 0; i < n; i++) {
        first = (first * 257 + out[i] + 1) % 4294967291u;
        second = (second * 65599 + out[i] + 1) % 4294967279u;
    }
    return first == word(want) && second == word(want + 4);
}

static int same_output(const struct head *h, const uint8_t *want, const uint8_t *out) {
    int same = h->kind % 2 == 0 ? has_digest(out, h->written, want) : memcmp(out, want, h->written) == 0;
    return same && all_filled(out + h->written, out + MOST);
}

// Both entries on one log; what it must write follows it.
static int same(plain *play, counting *play_counted, const struct head *h, const uint8_t *log, uint8_t *out) {
    uint64_t counts[4], answer = (uint64_t)h->refusal << 48 | h->number;
    size_t counted = h->refusal ? 0 : 3;
    memset(out, FILL, MOST);
    if (play(log, h->length, out, h->room) != answer || !same_output(h, log + h->length, out)) return 0;
    memset(out, FILL, MOST);
    memset(counts, FILL, sizeof counts);
    return play_counted(log, h->length, out, h->room, counts, 3) == answer && same_output(h, log + h->length, out)
        && memcmp(counts, h->counts, counted * sizeof *counts) == 0 && all_filled(counts + counted, counts + 4);
}

// A VGM file, kinds 3 and 4: its log is the output.
static int same_import(importing *import, const struct head *h, const uint8_t *file, uint8_t *out) {
    memset(out, FILL, MOST);
    return import(file, h->length, out, h->room) == ((uint64_t)h->refusal << 48 | h->number) && same_output(h, file + h->length, out);
}

// The same log on the image of the unit that it asks for: answer, output and counts are those; the image after it is written, or with a refusal nothing is.
static int same_from_image(making *make, from_image *play, from_image_counting *play_counted, const struct head *h, const uint8_t *log, uint8_t *out) {
    uint8_t image[BESTICORO_IMAGE_BYTES], after[2][BESTICORO_IMAGE_BYTES + 1];
    uint64_t counts[4], answer = (uint64_t)h->refusal << 48 | h->number;
    size_t counted = h->refusal ? 0 : 3, kept = h->refusal ? 0 : sizeof image;
    if (make(h->length > 1 ? log[1] & 3 : 0, image, sizeof image) != sizeof image) return 0;
    memset(after, FILL, sizeof after);
    memset(out, FILL, MOST);
    if (play(image, sizeof image, log, h->length, out, h->room, after[0], sizeof image) != answer || !same_output(h, log + h->length, out)) return 0;
    memset(out, FILL, MOST);
    memset(counts, FILL, sizeof counts);
    if (play_counted(image, sizeof image, log, h->length, out, h->room, after[1], sizeof image + 1, counts, 3) != answer) return 0;
    return same_output(h, log + h->length, out) && memcmp(counts, h->counts, counted * sizeof *counts) == 0 && all_filled(counts + counted, counts + 4)
        && memcmp(after[0], after[1], sizeof image) == 0 && all_filled(after[0] + kept, after[1]) && all_filled(after[1] + kept, after + 2);
}

// Which of several refusals comes first, on images; and that a log without records, of either version, gives the image back.
static int image_edges(making *make, from_image *play) {
    static const uint8_t no_records[2] = {1, 3}, none_of_2[2] = {2, 0}, wrong_log[2] = {1, 4}, read[7] = {1, 0, 0, 3, 2, 0xFF, 0x26};
    uint8_t image[BESTICORO_IMAGE_BYTES + 1] = {0}, after[BESTICORO_IMAGE_BYTES], out[2];
    const size_t n = BESTICORO_IMAGE_BYTES;
    memset(after, FILL, sizeof after);
    memset(out, FILL, sizeof out);
    return make(4, image, 0) == (uint64_t)4 << 48 && make(1, image, n - 1) == ((uint64_t)8 << 48) + n && make(1, image, n) == n
        && play(image, n + 1, wrong_log, 2, out, 0, after, 0) == (uint64_t)7 << 48 && play(image, n, wrong_log, 2, out, 0, after, 0) == (uint64_t)4 << 48
        && play(image, n, read, 7, out, 1, after, 0) == ((uint64_t)6 << 48) + 2 && play(image, n, read, 7, out, 2, after, n - 1) == ((uint64_t)8 << 48) + n
        && all_filled(after, after + n) && all_filled(out, out + 2) && play(image, n, no_records, 2, out, 2, after, n) == 0 && memcmp(after, image, n) == 0
        && memset(after, FILL, n) && play(image, n, none_of_2, 2, out, 2, after, n) == 0 && memcmp(after, image, n) == 0 && all_filled(out, out + 2);
}

// Too few counts are left as they are; a log longer than 65,536 bytes is refusal 3.
static int edges(plain *play, counting *play_counted, uint8_t *out) {
    static uint8_t long_log[MOST + 1] = {1, 1};
    static const uint8_t no_records[2] = {1, 1};
    uint64_t counts[2];
    memset(out, FILL, MOST);
    memset(counts, FILL, sizeof counts);
    return play_counted(no_records, 2, out, 0, counts, 2) == 0 && all_filled(counts, counts + 2)
        && play(long_log, MOST + 1, out, MOST) == (uint64_t)3 << 48 && play(long_log, MOST, out, MOST) == ((uint64_t)5 << 48) + 2
        && all_filled(out, out + MOST);
}

// A file cut at every length, with room and without: refused, with the place of the command that is cut or of the one that should follow. Then whole, into a
// log a byte short and one a byte longer; and its log played, where 736 samples are a frame less.
static int imports(importing *import, counting *play_counted, uint8_t *out) {
    static const size_t commands[] = {0, 3, 4, 7, 8, 11};
    uint8_t log[VGM_LOG_BYTES + 1];
    uint64_t counts[3];
    memset(log, FILL, sizeof log);
    for (size_t length = 0, next = 0; length < VGM_BYTES; length++) {
        while (next + 1 < sizeof commands / sizeof *commands && VGM_DATA + commands[next + 1] <= length) next++;
        uint64_t refused = length < VGM_DATA ? (uint64_t)9 << 48 : ((uint64_t)10 << 48) + VGM_DATA + commands[next];
        if (import(vgm_file, length, log, 0) != refused || import(vgm_file, length, log, sizeof log) != refused) return 0;
    }
    if (import(vgm_file, VGM_BYTES, log, VGM_LOG_BYTES - 1) != ((uint64_t)6 << 48) + VGM_LOG_BYTES || !all_filled(log, log + sizeof log)) return 0;
    if (import(vgm_file, VGM_BYTES, log, sizeof log) != VGM_LOG_BYTES || memcmp(log, vgm_log, VGM_LOG_BYTES) != 0 || log[VGM_LOG_BYTES] != FILL) return 0;
    return play_counted(log, VGM_LOG_BYTES, out, MOST, counts, 3) == 735 * BESTICORO_FRAME_BYTES && counts[0] == 735 && counts[1] == 17500 && counts[2] == 6;
}

// The longest log, 65,536 bytes: 85 waits of 65,535 samples (96 records each) and 31 of one. The player refuses it for room alone. A record more is refusal 11,
// after 10 and before 6.
static int longest_import(importing *import, plain *play, uint8_t *out) {
    enum { LONG = 85, SHORT = 31, AT = VGM_DATA + LONG * 3, SAMPLES = LONG * 65535 + SHORT };
    uint8_t file[AT + SHORT + 2] = {VGM_HEADER};
    for (size_t i = VGM_DATA; i < AT; i += 3) file[i] = 0x61, file[i + 1] = file[i + 2] = 0xFF;
    memset(file + AT, 0x70, SHORT + 1);
    file[AT + SHORT + 1] = 0x66;
    memset(out, FILL, MOST);
    if (import(file, sizeof file - 1, out, 0) != ((uint64_t)10 << 48) + sizeof file - 1 || import(file, sizeof file, out, 0) != (uint64_t)11 << 48) return 0;
    file[AT + SHORT] = 0x66;
    return import(file, sizeof file, out, MOST - 1) == ((uint64_t)6 << 48) + MOST && all_filled(out, out + MOST) && import(file, sizeof file, out, MOST) == MOST
        && play(out, MOST, file, 0) == ((uint64_t)6 << 48) + (SAMPLES - 1) * (uint64_t)BESTICORO_FRAME_BYTES;
}

// All entries of a kind on one case.
static int all_same(const struct head *h, const uint8_t *at, uint8_t *out) {
    if (h->kind >= 3) return same_import(import_vgm, h, at, out) && same_import(besticoro_import_vgm, h, at, out);
    return same(play_access_log, play_access_log_counted, h, at, out) && same(besticoro_play_access_log, besticoro_play_access_log_counted, h, at, out)
        && same_from_image(make_image, play_from_image, play_from_image_counted, h, at, out)
        && same_from_image(besticoro_make_image, besticoro_play_from_image, besticoro_play_from_image_counted, h, at, out);
}

int main(void) {
    uint8_t *cases = malloc(INPUT), *out = malloc(MOST);
    size_t n = fread(cases, 1, INPUT, stdin), at = 0, families = 0, played = 0, differ = 0;
    int ours = 0;
    // a head of kind 0 names the family that follows
    while (at + HEAD <= n) {
        struct head h = head_at(cases + at);
        size_t follows = h.kind > 0 && h.kind % 2 == 0 ? 8 : h.written;
        at += HEAD;
        if (n - at < h.length || n - at - h.length < follows || MOST < h.room) return 1;
        if (h.kind == 0) {
            ours = h.length >= sizeof OURS - 1 && memcmp(cases + at, OURS, sizeof OURS - 1) == 0;
            families += ours;
        } else if (ours) {
            played++;
            if (!all_same(&h, cases + at, out)) fprintf(stderr, "case %zu differs\n", played), differ++;
        }
        at += h.length + follows;
    }
    int right = edges(play_access_log, play_access_log_counted, out) && edges(besticoro_play_access_log, besticoro_play_access_log_counted, out);
    right = right && image_edges(make_image, play_from_image) && image_edges(besticoro_make_image, besticoro_play_from_image);
    right = right && imports(import_vgm, play_access_log_counted, out) && imports(besticoro_import_vgm, besticoro_play_access_log_counted, out);
    right = right && longest_import(import_vgm, play_access_log, out) && longest_import(besticoro_import_vgm, besticoro_play_access_log, out);
    printf("%zu answers in %zu families, %zu differ; edges %s\n", played, families, differ, right ? "as they should be" : "WRONG");
    return !(right && families == 3 && played > 0 && differ == 0 && at == n);
}
