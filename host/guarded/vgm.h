// A VGM file and its log, for the checks: power on, a wait of 735 samples, a write to FF14, waits of one sample and of none, the end.
#include <stdint.h>

enum { VGM_DATA = 0x84, VGM_BYTES = VGM_DATA + 12, VGM_LOG_BYTES = 44 };

// Mark, version 1.61, data from hex 84 on (hex 50 after hex 34), the Game Boy's clock: 4,194,304. All else is passed over.
#define VGM_HEADER 'V', 'g', 'm', ' ', [8] = 0x61, 1, [0x34] = 0x50, [0x82] = 0x40

static const uint8_t vgm_file[VGM_BYTES] = {VGM_HEADER, [VGM_DATA] = 0xB3, 0x16, 0x80, 0x62, 0xB3, 0x04, 0x87, 0x70, 0x61, 0, 0, 0x66};

// 735 samples are 17,476 calls, of which 1,092 are left after 16,384; those end at divider 11 and phase 04, and the next sample is 24 calls.
static const uint8_t vgm_log[VGM_LOG_BYTES] = {2, 1, 0, 4, 1, 0xFF, 0x26, 0x80, 0, 4, 1, 0xFF, 0x26, 0x80, 0, 6, 3, 0, 0, 0, 0x40, 0, 0, 6, 3, 0, 0, 0, 4, 0x44,
    0, 4, 1, 0xFF, 0x14, 0x87, 0, 6, 3, 0, 0x11, 4, 0, 0x18};
