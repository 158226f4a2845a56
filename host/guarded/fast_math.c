// fast_math FOLDER: built with -ffast-math, which sets flush-to-zero before main. The unguarded entry must give other bytes than the original, the guarded one the original's.
#include "../besticoro.h"
#include "floats.h"
#include "files.h"

int main(int argc, char **argv) {
    state start = get();
    struct bytes log = read_file(argc > 1 ? argv[1] : "", 0, "log"), original = read_file(argc > 1 ? argv[1] : "", 0, "bytes");
    if (!log.at || !original.at) return printf("fast_math FOLDER\n"), 2;
    if (!(start & FLUSH)) return printf("-ffast-math did not set flush-to-zero: state %llx\n", (unsigned long long)start), 1;
    uint8_t *out = malloc(original.length);
    play_access_log(log.at, log.length, out, original.length);
    size_t plain = first_difference(out, original.at, original.length);
    state before = get();
    uint64_t answer = besticoro_play_access_log(log.at, log.length, out, original.length);
    int stood = get() == before;
    size_t guarded = first_difference(out, original.at, original.length);
    printf("-ffast-math, state %llx: unguarded other bytes from %zu of %zu on, guarded %s, the state %s\n", (unsigned long long)start, plain, original.length,
        answer == original.length && guarded == original.length ? "the original's" : "WRONG", stood ? "stands" : "DOES NOT STAND");
    return !(plain < original.length && answer == original.length && guarded == original.length && stood);
}
