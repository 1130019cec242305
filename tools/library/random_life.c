/* Random calls of a store that is 85% full, beside a plain map, by one process after another. Most are killed in a sync, or the power is cut
 * there, of which the disk keeps any of the writes behind its last sync; some are killed between two calls; others close the store.
 *
 *     random_life CALLS SEED
 *
 * Behind each process each key has the value of the last sync that was answered, or one that it was given since; where the store was closed, just
 * that of the last sync. Of two keys that were put in order the later one's value is there only with the earlier one's, or what came after it. Puts
 * win room back themselves: one is refused only beyond the header's bound. The last line tells how many calls and processes there were, how many
 * were killed and cut off, how many puts were refused, and how much of the extents was live, in the mean. */
#define _GNU_SOURCE
#include "cutting.h"

#include <sys/wait.h>

enum {
    KEYS = 1024,
    INDEX_BLOCKS = 16,
    EXTENTS = 63,
    EXTENT_BYTES = 65536,
    OVERHEAD = 16,
    SHORT_VALUE = 256, /* at most; a quarter are short ones */
    LONG_VALUE = 3450, /* at least, and so much more at most */
    MORE = 2800,
    MOST_BYTES = LONG_VALUE + MORE + 4,
    MOST_CALLS = 5000, /* of a process */
    MOST_DISK_CHANGES = 2000,
    MOST_GIVEN = 1 << 16,
    WRITER = 3
};

/* A value that a key was given behind the last sync: its number, or 0 where the key was deleted. */
typedef struct {
    uint32_t key;
    uint32_t value;
} given;

/* Two of them, of which the later one goes to the disk behind the earlier one. */
typedef struct {
    uint32_t earlier;
    uint32_t later;
} ordered;

/* How a process ends. */
typedef enum { KILLED_IN_SYNC, CUT_IN_SYNC, KILLED_BETWEEN, CLOSED, SYNCED, ENDS } ending;

/* What a process leaves for the one that looks at what it did. */
typedef struct {
    uint64_t state; /* of the random numbers */
    uint64_t calls;
    uint64_t refused;
    uint32_t values; /* how many were made */
    uint32_t now[KEYS];
    uint32_t synced[KEYS];
    uint32_t given_count;
    given given[MOST_GIVEN];
    uint32_t ordered_count;
    ordered ordered[MOST_GIVEN];
} story;

static story *told;

static uint32_t chosen(uint32_t below) {
    told->state ^= told->state << 13;
    told->state ^= told->state >> 7;
    told->state ^= told->state << 17;
    return (uint32_t)((told->state >> 20) % below);
}

/* Values. */

static size_t length_of(uint32_t number) {
    uint32_t mixed = number * 2654435761u;
    return sizeof number + ((mixed >> 30) == 0 ? (mixed >> 3) % SHORT_VALUE : LONG_VALUE + (mixed >> 3) % MORE);
}

/* The value of this number: no other has its bytes. */
static size_t value_of(uint32_t number, uint8_t *value) {
    size_t length = length_of(number);
    memset(value, (int)(number % 251), length);
    memcpy(value, &number, sizeof number);
    return length;
}

static bool is_value(uint32_t number, const uint8_t *value, size_t length) {
    uint8_t wanted[MOST_BYTES];
    return length == length_of(number) && memcmp(value, wanted, value_of(number, wanted)) == 0;
}

/* The numbers of keys, as they are ordered. */
static size_t key_of(uint32_t number, uint8_t *key) {
    key[0] = (uint8_t)(number >> 8);
    key[1] = (uint8_t)number;
    memset(key + 2, 'k', number % 7);
    return 2 + number % 7;
}

static uint32_t number_of(const uint8_t *key) {
    return (uint32_t)key[0] << 8 | key[1];
}

/* Calls. */

static void note(uint32_t key, uint32_t value) {
    MUST(told->given_count < MOST_GIVEN);
    told->given[told->given_count++] = (given){key, value};
    told->now[key] = value;
}

/* Where a put is refused the disk is full. */
static void want_full(const fstch_store *store, size_t frame) {
    fstch_statistics seen;
    WANT(FSTCH_DONE, fstch_stats(store, &seen));
    WANT(true, seen.empty_extents == 0 || seen.live_bytes > (uint64_t)(EXTENTS - 2) * (EXTENT_BYTES - frame));
    told->refused++;
}

/* Whether the key has a new value. */
static bool put_value(fstch_store *store, uint32_t writer, uint32_t number) {
    uint8_t key[16], value[MOST_BYTES];
    size_t key_length = key_of(number, key), length = value_of(told->values + 1, value);
    int32_t answer = fstch_put(store, writer, key, key_length, value, length);
    if (answer == FSTCH_NO_SPACE) {
        want_full(store, key_length + length + OVERHEAD);
        return false;
    }
    WANT(FSTCH_DONE, answer);
    note(number, ++told->values);
    return true;
}

static void put_some(fstch_store *store) {
    put_value(store, FSTCH_NO_WRITER, chosen(KEYS));
}

static void delete_one(fstch_store *store) {
    uint8_t key[16];
    uint32_t number = chosen(KEYS);
    WANT(told->now[number] == 0 ? FSTCH_NO_KEY : FSTCH_DONE, fstch_delete(store, FSTCH_NO_WRITER, key, key_of(number, key)));
    if (told->now[number] != 0) {
        note(number, 0);
    }
}

static bool has_value(const fstch_store *store, uint32_t number, uint32_t value) {
    uint8_t key[16], into[MOST_BYTES];
    size_t length = 0;
    int32_t answer = fstch_get(store, key, key_of(number, key), into, sizeof into, &length);
    if (value == 0) {
        return answer == FSTCH_ABSENT;
    }
    return answer == FSTCH_DONE && is_value(value, into, length);
}

static void get_one(fstch_store *store) {
    uint32_t number = chosen(KEYS);
    WANT(true, has_value(store, number, told->now[number]));
}

/* The nearest key that has a value, from this one on, upwards or downwards; KEYS where there is none. */
static uint32_t nearest(uint32_t number, int step) {
    while (number < KEYS && told->now[number] == 0) {
        number += (uint32_t)step;
    }
    return number < KEYS ? number : KEYS;
}

static void want_found(uint32_t wanted, int32_t answer, const uint8_t *key, size_t value_length) {
    WANT(wanted == KEYS ? FSTCH_ABSENT : FSTCH_DONE, answer);
    if (answer == FSTCH_DONE) {
        WANT(wanted, number_of(key));
        WANT(length_of(told->now[wanted]), value_length);
    }
}

static void look_on(fstch_store *store) {
    uint8_t from[16], key[FSTCH_MAX_KEY];
    size_t key_length = 0, value_length = 0;
    uint32_t number = chosen(KEYS);
    int32_t answer = fstch_next(store, from, key_of(number, from), key, sizeof key, &key_length, &value_length);
    want_found(nearest(number, 1), answer, key, value_length);
}

static void look_back(fstch_store *store) {
    uint8_t before[16], key[FSTCH_MAX_KEY];
    size_t key_length = 0, value_length = 0;
    uint32_t number = chosen(KEYS);
    int32_t answer = fstch_previous(store, before, key_of(number, before), key, sizeof key, &key_length, &value_length);
    want_found(nearest(number - 1, -1), answer, key, value_length);
}

static void count_keys(fstch_store *store) {
    uint32_t keys = 0;
    fstch_statistics seen;
    for (uint32_t number = 0; number < KEYS; number++) {
        keys += told->now[number] != 0;
    }
    WANT(FSTCH_DONE, fstch_stats(store, &seen));
    WANT(keys, seen.keys);
}

static uint32_t new_group(fstch_store *store) {
    uint32_t group = 0;
    WANT(FSTCH_DONE, fstch_group(store, &group));
    return group;
}

static bool put_in_group(fstch_store *store, uint32_t group) {
    WANT(FSTCH_DONE, fstch_group_engage(store, group, WRITER));
    bool is_put = put_value(store, WRITER, chosen(KEYS));
    WANT(FSTCH_DONE, fstch_group_disengage(store, group, WRITER));
    return is_put;
}

/* Two puts in order. */
static void put_ordered(fstch_store *store) {
    uint32_t first = told->given_count, earlier = new_group(store);
    bool has_earlier = put_in_group(store, earlier);
    uint32_t later = new_group(store);
    WANT(FSTCH_DONE, fstch_group_depend(store, later, earlier));
    if (put_in_group(store, later) && has_earlier) {
        told->ordered[told->ordered_count++] = (ordered){first, first + 1};
    }
    WANT(FSTCH_DONE, fstch_group_close(store, earlier));
    WANT(FSTCH_DONE, fstch_group_close(store, later));
}

/* All that was given lasts. */
static void note_sync(void) {
    memcpy(told->synced, told->now, sizeof told->now);
    told->given_count = 0;
    told->ordered_count = 0;
}

static void sync_all(fstch_store *store) {
    WANT(FSTCH_DONE, fstch_sync(store));
    note_sync();
}

/* Each call, and how many of a hundred calls it is. */
static const struct {
    uint32_t share;
    void (*make)(fstch_store *store);
} kinds[] = {{45, put_some}, {4, delete_one}, {28, get_one}, {9, look_on}, {8, look_back}, {2, count_keys}, {3, put_ordered}, {1, sync_all}};

static void call_once(fstch_store *store) {
    uint32_t place = chosen(100);
    size_t kind = 0;
    while (place >= kinds[kind].share) {
        place -= kinds[kind++].share;
    }
    kinds[kind].make(store);
    told->calls++;
}

/* A process. */

static void live(ending end, uint32_t calls) {
    fstch_store store = FSTCH_CLOSED;
    WANT(FSTCH_DONE, open_path(&store, FILE_NAME));
    for (uint32_t number = 0; number < calls && wrong_wants == 0; number++) {
        call_once(&store);
    }
    if (wrong_wants > 0) {
        _exit(3);
    }
    if (end != CLOSED && end != SYNCED) {
        raise(SIGKILL);
    }
    if (end == SYNCED) {
        sync_all(&store);
    }
    WANT(FSTCH_DONE, fstch_close(&store));
    _exit(wrong_wants > 0 ? 3 : 0);
}

/* Whether it was killed. */
static bool make_live(ending end) {
    bool in_sync = end == KILLED_IN_SYNC || end == CUT_IN_SYNC;
    disk->changes_left = in_sync ? (long)chosen(MOST_DISK_CHANGES) : -1;
    uint32_t calls = in_sync ? MOST_CALLS : chosen(MOST_CALLS);
    pid_t child = fork();
    MUST(child >= 0);
    if (child == 0) {
        live(end, calls);
    }
    int status = 0;
    MUST(waitpid(child, &status, 0) == child);
    MUST(WIFSIGNALED(status) ? WTERMSIG(status) == SIGKILL : WEXITSTATUS(status) == 0);
    return WIFSIGNALED(status);
}

/* What is left. */

/* Where the last sync let a value last, and where a key has a value that it was never given. */
enum { AT_SYNC = 0, NOWHERE = MOST_GIVEN + 1 };

/* Which of the values that the key was given behind the last sync it has, counted from 1. */
static uint32_t found_value(const fstch_store *store, uint32_t key) {
    for (uint32_t place = told->given_count; place > 0; place--) {
        if (told->given[place - 1].key == key && has_value(store, key, told->given[place - 1].value)) {
            return place;
        }
    }
    return has_value(store, key, told->synced[key]) ? AT_SYNC : NOWHERE;
}

/* Whether the later value of two is there, and not the earlier one or what came after it. */
static bool is_out_of_order(ordered pair, const uint32_t *found) {
    return found[told->given[pair.later].key] == pair.later + 1 && found[told->given[pair.earlier].key] <= pair.earlier;
}

/* From now on the map is what the file holds. */
static void take_found(const uint32_t *found) {
    for (uint32_t key = 0; key < KEYS; key++) {
        told->now[key] = found[key] == AT_SYNC ? told->synced[key] : told->given[found[key] - 1].value;
    }
    note_sync();
}

/* Looks at what is left, and answers how much of the extents is live. Only a sync may have let some values last and others not. */
static double check_left(bool in_sync) {
    static uint32_t found[KEYS];
    fstch_store store = FSTCH_CLOSED;
    fstch_statistics seen = {0};
    WANT(FSTCH_DONE, open_path(&store, FILE_NAME));
    for (uint32_t key = 0; key < KEYS; key++) {
        found[key] = in_sync ? found_value(&store, key) : AT_SYNC;
        MUST(found[key] != NOWHERE && (in_sync || has_value(&store, key, told->synced[key])));
    }
    for (uint32_t number = 0; number < told->ordered_count; number++) {
        MUST(!is_out_of_order(told->ordered[number], found));
    }
    WANT(FSTCH_DONE, fstch_stats(&store, &seen));
    WANT(FSTCH_DONE, fstch_close(&store));
    take_found(found);
    return (double)seen.live_bytes / ((double)EXTENTS * EXTENT_BYTES);
}

/* How many processes there were. */
typedef struct {
    uint64_t processes;
    uint64_t killed; /* in a sync */
    uint64_t cut;    /* so that some writes behind the last sync of the disk were lost */
    double live;     /* shares of the extents, together */
} tally;

/* How many of a hundred writes a cut leaves. */
static uint32_t landing_share;

static bool lands(void) {
    return chosen(100) < landing_share;
}

static void live_and_look(tally *all) {
    ending end = (ending)chosen(ENDS);
    bool is_killed = make_live(end), in_sync = is_killed && disk->changes_left == 0;
    if (in_sync && end == CUT_IN_SYNC) {
        landing_share = chosen(5) * 25;
        cut_power(FILE_NAME, lands);
        all->cut += disk->loose > 0;
    }
    all->killed += in_sync;
    all->processes++;
    keep_disk(FILE_NAME);
    all->live += check_left(in_sync);
}

static bool is_done;

static void tell_where(void) {
    if (!is_done) {
        fprintf(stderr, "behind %llu calls\n", (unsigned long long)told->calls);
    }
}

int main(int count, char **words) {
    MUST(count == 3);
    uint64_t calls = strtoull(words[1], NULL, 10);
    tally all = {0};
    told = (story *)common(sizeof *told);
    told->state = 88172645463325252u + strtoull(words[2], NULL, 10);
    atexit(tell_where);
    remove(FILE_NAME);
    MUST(make(FILE_NAME, INDEX_BLOCKS, EXTENTS) == FSTCH_DONE);
    new_disk(FILE_NAME);
    while (told->calls < calls && wrong_wants == 0) {
        live_and_look(&all);
    }
    is_done = wrong_wants == 0;
    printf("%llu calls in %llu processes, %llu killed in a sync, where the power was cut in %llu; %llu puts refused, %.0f of 100 live\n",
           (unsigned long long)told->calls, (unsigned long long)all.processes, (unsigned long long)all.killed, (unsigned long long)all.cut,
           (unsigned long long)told->refused, 100 * all.live / (double)all.processes);
    return ended();
}
