/* One store that stays open: puts over 1,000 keys, with a sync behind each 1,000 of them, and groups, each with a put.
 *
 *     long_life PUTS GROUPS
 *
 * writes how much memory the program has behind the first million puts, or behind all of fewer, and at the end. No call may be refused, and
 * each key has its last value, also where the file is opened again. */
#include "wanting.h"

#include <unistd.h>

enum { KEYS = 1000, LONGEST_VALUE = 96, PUTS_OF_A_SYNC = 1000, GROUPS_OF_A_SYNC = 500 };

/* Which put each key's value is of; 0 where it has none. */
static uint64_t last_put[KEYS];
static uint64_t puts_made;

/* The key of a put: they don't come by turns, and each comes about as often. */
static uint32_t key_of(uint64_t number) {
    return (uint32_t)((number * 2654435761u >> 7) % KEYS);
}

static size_t value_of(uint64_t number, uint8_t *value) {
    memset(value, (int)(number & 0xff), LONGEST_VALUE);
    memcpy(value, &number, sizeof number);
    return sizeof number + number % (LONGEST_VALUE - sizeof number + 1);
}

static void put_next(fstch_store *store, uint32_t writer) {
    uint8_t value[LONGEST_VALUE];
    uint64_t number = ++puts_made;
    uint32_t key = key_of(number);
    size_t length = value_of(number, value);
    WANT(FSTCH_DONE, fstch_put(store, writer, &key, sizeof key, value, length));
    last_put[key] = number;
}

static bool has_last(const fstch_store *store, uint32_t key) {
    uint8_t wanted[LONGEST_VALUE], value[LONGEST_VALUE];
    size_t length = 0;
    int32_t answer = fstch_get(store, &key, sizeof key, value, sizeof value, &length);
    if (last_put[key] == 0) {
        return answer == FSTCH_ABSENT;
    }
    return answer == FSTCH_DONE && length == value_of(last_put[key], wanted) && memcmp(value, wanted, length) == 0;
}

static void each_has_last(const fstch_store *store) {
    for (uint32_t key = 0; key < KEYS; key++) {
        WANT(true, has_last(store, key));
    }
}

/* How many KB of memory the program has. */
static long memory(void) {
    long pages = 0, resident = 0;
    FILE *file = fopen("/proc/self/statm", "r");
    MUST(file != NULL && fscanf(file, "%ld %ld", &pages, &resident) == 2);
    fclose(file);
    return resident * (sysconf(_SC_PAGESIZE) / 1024);
}

static long put_all(fstch_store *store, uint64_t puts) {
    long first = 0;
    for (uint64_t number = 1; number <= puts && wrong_wants == 0; number++) {
        put_next(store, FSTCH_NO_WRITER);
        if (number % PUTS_OF_A_SYNC == 0) {
            WANT(FSTCH_DONE, fstch_sync(store));
        }
        if (number == 1000000 || (number == puts && number < 1000000)) {
            first = memory();
        }
    }
    return first;
}

static void make_groups(fstch_store *store, uint64_t groups) {
    for (uint64_t number = 1; number <= groups && wrong_wants == 0; number++) {
        uint32_t group = 0;
        WANT(FSTCH_DONE, fstch_group(store, &group));
        WANT(FSTCH_DONE, fstch_group_engage(store, group, 0));
        put_next(store, 0);
        WANT(FSTCH_DONE, fstch_group_disengage(store, group, 0));
        WANT(FSTCH_DONE, fstch_group_close(store, group));
        if (number % GROUPS_OF_A_SYNC == 0) {
            WANT(FSTCH_DONE, fstch_sync(store));
        }
    }
}

int main(int count, char **words) {
    MUST(count == 3);
    fstch_store store = new_store(16, 40);
    long first = put_all(&store, strtoull(words[1], NULL, 10));
    make_groups(&store, strtoull(words[2], NULL, 10));
    WANT(FSTCH_DONE, fstch_sync(&store));
    each_has_last(&store);
    long end = memory();
    WANT(FSTCH_DONE, fstch_close(&store));
    WANT(FSTCH_DONE, open_path(&store, FILE_NAME));
    each_has_last(&store);
    WANT(FSTCH_DONE, fstch_close(&store));
    printf("%llu puts, %ld KB of memory at first, %ld KB at the end\n", (unsigned long long)puts_made, first, end);
    return ended();
}
