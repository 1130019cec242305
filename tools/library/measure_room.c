/* Measures how many frames a put writes where puts win room back: one, and those that are moved for it.
 *
 *     measure_room EXTENTS VALUE SHARE PUTS
 *
 * puts values of so many bytes under as many keys as make so many hundredths of the extents' bytes live, in a new file with so many extents of
 * 65,536 bytes, and then overwrites keys that are chosen alike often, so many times, with a sync behind each 1,000. It writes the frames a put, the
 * most of one, and how many of 100 puts wrote one alone. */
#include "wanting.h"

enum { LONGEST_VALUE = 32768, EXTENT_BYTES = 65536, MOST_EXTENTS = 254, KEY = 4, OVERHEAD = 16, MOST_FRAMES = 4096 };

static uint8_t value[LONGEST_VALUE];
static uint32_t filled[MOST_EXTENTS];
static uint64_t state = 88172645463325252u;

static uint64_t chosen(uint64_t below) {
    state ^= state << 13;
    state ^= state >> 7;
    state ^= state << 17;
    return state % below;
}

static void put_one(fstch_store *store, uint32_t key, size_t length) {
    WANT(FSTCH_DONE, fstch_put(store, FSTCH_NO_WRITER, &key, KEY, value, length));
}

/* How many bytes were appended to the extents since this was called last. An extent that was won back begins at 0. */
static uint64_t appended(const fstch_store *store, uint32_t extents) {
    uint64_t bytes = 0;
    for (uint32_t extent = 0; extent < extents; extent++) {
        uint32_t live = 0, now = 0;
        WANT(FSTCH_DONE, fstch_extent(store, extent, &live, &now));
        bytes += now >= filled[extent] ? now - filled[extent] : now;
        filled[extent] = now;
    }
    return bytes;
}

int main(int count, char **words) {
    MUST(count == 5);
    uint32_t extents = (uint32_t)strtoul(words[1], NULL, 10);
    size_t length = strtoul(words[2], NULL, 10), frame = length + KEY + OVERHEAD;
    uint32_t keys = (uint32_t)((uint64_t)extents * EXTENT_BYTES * strtoul(words[3], NULL, 10) / 100 / frame);
    uint64_t puts = strtoull(words[4], NULL, 10), frames = 0, most = 0, alone = 0;
    MUST(extents <= MOST_EXTENTS && length <= LONGEST_VALUE && keys <= 1024);
    fstch_store store = new_store(16, extents);
    for (uint32_t key = 0; key < keys; key++) {
        put_one(&store, key, length);
    }
    appended(&store, extents);
    for (uint64_t number = 1; number <= puts && wrong_wants == 0; number++) {
        put_one(&store, (uint32_t)chosen(keys), length);
        uint64_t written = appended(&store, extents) / frame;
        frames += written;
        most = written > most ? written : most;
        alone += written == 1;
        if (number % 1000 == 0) {
            WANT(FSTCH_DONE, fstch_sync(&store));
        }
    }
    printf("%u keys, %s of 100 live: %.2f frames a put, %llu at most, %.1f of 100 puts one\n", keys, words[3], (double)frames / (double)puts,
           (unsigned long long)most, 100.0 * (double)alone / (double)puts);
    WANT(FSTCH_DONE, fstch_close(&store));
    return ended();
}
