/* The player of Game Boy sound logs, and the import of VGM files, for a host in C (C99 or later) or C++ (C++98 or later).
 *
 * Each entry has two names. The plain one (play_access_log) is the proved function itself. The one with besticoro_ before it
 * looks at what it is lent, puts the default float environment around the call, and gives the host's own back after it.
 * Call the second, unless you can promise what the first asks.
 *
 * THE ANSWER is one number: refusal * 2^48 + number. BESTICORO_REFUSAL and BESTICORO_NUMBER take it apart.
 *
 *   refusal  when, exactly                                            number
 *   0        the log was played                                       bytes written to the front of out
 *            an image was made                                        bytes written to the front of image: 164
 *            a VGM file was imported                                  bytes written to the front of log
 *   3        the log is longer than 65,536 bytes                      0
 *   4        it is under 2 bytes, its byte 0 (the version) is         0
 *            neither 1 nor 2, or its byte 1 (the start) is above 3
 *   5        a record is wrong or cut short                           place in the log of the first such record's
 *                                                                     first length byte
 *   6        out, or an import's log, has fewer bytes than needed     the bytes needed
 *   7        the image is not one that is taken                       0
 *   8        the place for an image is shorter than 164 bytes         the bytes needed: 164
 *   9        the VGM file's header is wrong                           0
 *   10       a command of it is not taken or cut short, or there      place in the file of the first such command, with no
 *            is no end                                                end the file's length; at most 2^48 - 1
 *   11       its log would be longer than 65,536 bytes                0
 *   0xFFFF   the memory lent cannot be lent (besticoro_ names only)   0
 *
 * 0xFFFF is tried first, then 7, then 3 to 6 in that order, then 8; in an import 9, 10, 11, then 6. With any refusal nothing that was
 * lent is touched.
 *
 * WHAT IS LENT is memory as a pointer and a length, for the time of the call. vgm and the log and image played from are read and never
 * written; out, after, counts, the image made and an import's log are written, and nothing else is. Bytes past those written stay as
 * they were. No memory is allocated and nothing is kept, so any number of threads may play at once. Every call ends.
 *
 * A LOG is of version 1 or 2. A clock record of version 1 is 03, speed, divider, count, and every call has that divider. One of
 * version 2 is 03, speed, divider, phase (0 to 63), count, and in call i from 0 the divider is the byte plus (phase + i)/64, rounded
 * down, modulo 256. All other records are the same in both. A clock record of the other version's length, or with a phase above 63,
 * is wrong (5).
 *
 * The bytes that an output needs: play into no output (out_length 0) and take the number of refusal 6; the answer 0 means none.
 * That costs by the log's records, not by its clock calls. No log needs more than 264,491,123 bytes.
 *
 * THE OUTPUT is a row of items, in the order of the log's records:
 *   0x46  a frame: ten f32 bit patterns, high byte first, right and left of pulse 1, pulse 2, wave, noise, and their sum
 *   0x52  a read: the byte read
 *   0x50  both PCM reads: two bytes
 *
 * AN IMAGE is a unit's whole state in 164 bytes: byte 0 is its version, 1, bytes 1 and 2 the length of the rest, 00 A1, and then
 * every field in the order of the original's structures, numbers high byte first. It means the same on every machine. An image is
 * taken exactly if it is 164 bytes long and every field lies in the range that the rules give it. Every image that an entry made
 * is taken. To see whether another is, play the log 01 00, which has no records, on it: the answer is 0, and after becomes the
 * same bytes, or it is refusal 7.
 *
 * A VGM FILE is taken from version 1.61 of its public specification on; numbers in it are low byte first. Its header is right
 * exactly if it begins with "Vgm ", the version at hex 08 is 00000161 hex or above, the Game Boy's clock at hex 80 is 4,194,304, and
 * the data, which begin so many bytes after hex 34 as the number there says, begin at hex 84 or later and not past the file's end.
 * The commands taken are B3 with registers 00 to 2F (FF10 up), the waits 61, 62, 63 and 70 to 7F, and the end, 66. The loop offset,
 * tags and what follows the end are passed over. A compressed file, .vgz, is refused with 9: unpack it first. The file may be of any
 * length, but its log may not: music at 60 ticks a second fills one in some 14 seconds with ten writes a tick, in 68 with none.
 *
 * WHAT A CALLER OF THE PLAIN NAMES PROMISES. The besticoro_ names see to all of this, or refuse:
 *   - Floats: IEEE arithmetic, rounded to nearest, subnormals kept, no exception trapped. That is how a C program starts; not so
 *     where a program was linked with -ffast-math, or a thread set another mode. In another mode the samples are other samples.
 *     import_vgm has no floats, and its log is the same in any mode.
 *   - No pointer is null, not even one with length 0; counts is aligned as uint64_t.
 *   - Lengths are those of memory that is there: at most PTRDIFF_MAX bytes, none past the end of the address space.
 *   - No memory that is written overlaps other memory that is lent.
 */
#ifndef BESTICORO_H
#define BESTICORO_H

#include <stddef.h>
#include <stdint.h>

#ifdef __cplusplus
extern "C" {
#endif

enum besticoro_refusal {
    BESTICORO_DONE = 0,
    BESTICORO_TOO_LONG = 3,
    BESTICORO_BAD_START = 4,
    BESTICORO_WRONG_RECORD = 5,
    BESTICORO_NO_ROOM = 6,
    BESTICORO_WRONG_IMAGE = 7,
    BESTICORO_NO_ROOM_FOR_IMAGE = 8,
    BESTICORO_BAD_HEADER = 9,
    BESTICORO_WRONG_COMMAND = 10,
    BESTICORO_VGM_TOO_LONG = 11,
    BESTICORO_BAD_MEMORY = 0xFFFF
};

#define BESTICORO_REFUSAL(answer) ((int)((uint64_t)(answer) >> 48))
#define BESTICORO_NUMBER(answer) ((uint64_t)(answer) & (((uint64_t)1 << 48) - 1))

/* The longest log that is not refused with 3, and that an import makes; the bytes of a frame in the output, and those of an image. */
#define BESTICORO_LONGEST_LOG 65536
#define BESTICORO_FRAME_BYTES 41
#define BESTICORO_IMAGE_BYTES 164

/* Plays a log into the front of out. Refusals 3 to 6. */
uint64_t play_access_log(const uint8_t *log, size_t log_length, uint8_t *out, size_t out_length);

/* The same, and counts[0] becomes the number of frames made, counts[1] of clock calls, counts[2] of records. counts_length is in
 * numbers, not bytes. Fewer than 3 are all left alone; of more than 3 the rest is. With a refusal all are. */
uint64_t play_access_log_counted(const uint8_t *log, size_t log_length, uint8_t *out, size_t out_length, uint64_t *counts, size_t counts_length);

/* Writes the image of a fresh unit to the front of image, by a log's start byte: bit 0 DMG, bit 1 the state after the boot program.
 * Done, the answer is 164. Refusals 4 (start above 3) and 8, in that order. */
uint64_t make_image(uint8_t start, uint8_t *image, size_t image_length);

/* Plays a log's records on the unit of an image, which goes on where it was kept. What they make goes to the front of out, and the
 * image of the unit after them to the front of after. Refusals 7, then 3 to 6, then 8. The log's start byte is judged and not used:
 * the unit is the image's, so a log that says DMG plays on the image's own model. The version is the log's own, so logs of both may
 * follow each other. The bytes needed (6) go by the image too: it says how far the next frame is. To keep the new image at the place
 * of the old one, copy it there after the call: the two may not overlap. */
uint64_t play_from_image(const uint8_t *image, size_t image_length, const uint8_t *log, size_t log_length,
    uint8_t *out, size_t out_length, uint8_t *after, size_t after_length);

/* The same, and counts as in play_access_log_counted: the frames, clock calls and records of this log alone. */
uint64_t play_from_image_counted(const uint8_t *image, size_t image_length, const uint8_t *log, size_t log_length,
    uint8_t *out, size_t out_length, uint8_t *after, size_t after_length, uint64_t *counts, size_t counts_length);

/* Writes a VGM file's log to the front of log: of version 2, for a DMG unit, first a write of 80 to FF26, then a record for each write
 * of the file, in its order, and for each wait records of 16,384 calls and one for the rest, if any, at normal speed. Up to sample s of
 * the file there are s * 262144/11025 calls, rounded down, and the divider runs through all of them from 0. Refusals 9, 10, 11, 6, in
 * that order; with BESTICORO_LONGEST_LOG bytes of room 6 never comes. play_access_log refuses such a log for room alone. */
uint64_t import_vgm(const uint8_t *vgm, size_t vgm_length, uint8_t *log, size_t log_length);

/* The guarded twins need nothing of their caller but that lent memory is the caller's own. They give 0xFFFF * 2^48, and do nothing
 * else, for
 *   - a null pointer with a length; with length 0 any pointer will do, null too, and such a part overlaps nothing
 *   - a length of more than PTRDIFF_MAX bytes, or memory that would end past the address space
 *   - counts, with a length, not aligned to 8 bytes
 *   - a part that is written (out, after, counts, the image made, an import's log) overlapping any other part that is lent by a
 *     byte or more; all of the length lent counts. The log and the image played from may overlap: both are read
 * The host's float environment is the same before and after: rounding, flush-to-zero, denormals-are-zero, trap masks, flags. */
uint64_t besticoro_play_access_log(const uint8_t *log, size_t log_length, uint8_t *out, size_t out_length);
uint64_t besticoro_play_access_log_counted(const uint8_t *log, size_t log_length, uint8_t *out, size_t out_length, uint64_t *counts, size_t counts_length);
uint64_t besticoro_make_image(uint8_t start, uint8_t *image, size_t image_length);
uint64_t besticoro_play_from_image(const uint8_t *image, size_t image_length, const uint8_t *log, size_t log_length,
    uint8_t *out, size_t out_length, uint8_t *after, size_t after_length);
uint64_t besticoro_play_from_image_counted(const uint8_t *image, size_t image_length, const uint8_t *log, size_t log_length,
    uint8_t *out, size_t out_length, uint8_t *after, size_t after_length, uint64_t *counts, size_t counts_length);
uint64_t besticoro_import_vgm(const uint8_t *vgm, size_t vgm_length, uint8_t *log, size_t log_length);

/* A channel's volume envelope, which the host lends. Its numbers may be any; both flags are 0 or 1. */
struct besticoro_envelope {
    uint8_t starting_volume;
    uint8_t current_volume;
    uint8_t sweep_increase; /* a flag */
    uint8_t period;
    uint8_t envelope_can_run; /* a flag */
    uint8_t counter;
};

/* The trigger of its channel: volume and counter are set again, and it runs. No floats, no refusals; the pointer is not null. */
void envelope_trigger(struct besticoro_envelope *e);

/* A clock of the sequencer: the counter goes down, and where it runs out a running envelope steps its volume. */
void envelope_clock(struct besticoro_envelope *e);

/* Their guarded twins answer 0, or 0xFFFF * 2^48 for a null pointer or a flag that is neither 0 nor 1, and touch nothing then. */
uint64_t besticoro_envelope_trigger(struct besticoro_envelope *e);
uint64_t besticoro_envelope_clock(struct besticoro_envelope *e);

#ifdef __cplusplus
}
#endif

#endif
