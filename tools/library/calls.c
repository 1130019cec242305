/* Each call of fstch.h: what it does, and each refusal that a program can bring about, by its number. Also read as C++. */
#include "wanting.h"

/* Makes a new file, and opens it so that puts win no room back. */
static fstch_store new_store_by_hand(uint32_t index_blocks, uint32_t extents) {
    fstch_store store = new_store(index_blocks, extents);
    WANT(FSTCH_DONE, fstch_close(&store));
    WANT(FSTCH_DONE, fstch_open_with(&store, FILE_NAME, FSTCH_MANUAL, NULL));
    return store;
}

static bool is_zeros(const fstch_store *store) {
    return !store->is_open && store->at == NULL;
}

static void closed_stores_are_refused(void) {
    fstch_store store = FSTCH_CLOSED;
    uint8_t into[4] = {1, 2, 3, 4};
    size_t length = 777, other = 777;
    uint32_t number = 777, count = 777;
    fstch_statistics statistics = {777, 777, 777, 777, 777, 777, 777, 777};
    WANT(false, fstch_is_open(&store));
    WANT(FSTCH_NOT_OPEN, fstch_close(&store));
    WANT(FSTCH_NOT_OPEN, fstch_sync(&store));
    WANT(FSTCH_NOT_OPEN, put(&store, "key", "value"));
    WANT(FSTCH_NOT_OPEN, fstch_get(&store, "key", 3, into, sizeof into, &length));
    WANT(FSTCH_NOT_OPEN, delete_key(&store, "key"));
    WANT(FSTCH_NOT_OPEN, fstch_reclaim(&store, 0));
    WANT(FSTCH_NOT_OPEN, fstch_check(&store, &number, &count));
    WANT(FSTCH_NOT_OPEN, fstch_entry(&store, 0, into, sizeof into, &length, &other));
    WANT(FSTCH_NOT_OPEN, fstch_next(&store, "key", 3, into, sizeof into, &length, &other));
    WANT(FSTCH_NOT_OPEN, fstch_previous(&store, "key", 3, into, sizeof into, &length, &other));
    WANT(FSTCH_NOT_OPEN, fstch_last(&store, into, sizeof into, &length, &other));
    WANT(FSTCH_NOT_OPEN, fstch_extent(&store, 0, &number, &count));
    WANT(FSTCH_NOT_OPEN, fstch_unsynced(&store, &number));
    WANT(FSTCH_NOT_OPEN, fstch_stats(&store, &statistics));
    WANT(FSTCH_NOT_OPEN, fstch_group(&store, &number));
    WANT(FSTCH_NOT_OPEN, fstch_group_engage(&store, 0, 0));
    WANT(FSTCH_NOT_OPEN, fstch_group_disengage(&store, 0, 0));
    WANT(FSTCH_NOT_OPEN, fstch_group_depend(&store, 1, 0));
    WANT(FSTCH_NOT_OPEN, fstch_group_close(&store, 0));
    WANT(FSTCH_NOT_OPEN, fstch_group_pending(&store, 0, &number));
    /* whatever else would be refused */
    WANT(FSTCH_NOT_OPEN, put(&store, "", "value"));
    WANT(FSTCH_NOT_OPEN, put_by(&store, FSTCH_WRITERS, "key", "value"));
    WANT(true, is_zeros(&store));
    WANT(777, length);
    WANT(777, other);
    WANT(777, number);
    WANT(777, count);
    WANT(777, statistics.keys);
    WANT(777, statistics.waves);
    WANT(0, memcmp(into, "\1\2\3\4", 4));
}

static void files_are_made(void) {
    remove(FILE_NAME);
    WANT(FSTCH_GEOMETRY, make(FILE_NAME, 0, 4));
    WANT(FSTCH_GEOMETRY, make(FILE_NAME, 17, 4));
    WANT(FSTCH_GEOMETRY, make(FILE_NAME, 1, 1));
    WANT(FSTCH_GEOMETRY, make(FILE_NAME, 1, 255));
    WANT(FSTCH_GEOMETRY, make(FILE_NAME, UINT32_MAX, UINT32_MAX));
    WANT(FSTCH_GEOMETRY, fstch_make(FILE_NAME, 1, 4, 15));
    WANT(FSTCH_GEOMETRY, fstch_make(FILE_NAME, 1, 4, 65));
    WANT(FSTCH_GEOMETRY, fstch_make(FILE_NAME, 1, 254, 64));
    WANT(FSTCH_DISK, make("no such folder/" FILE_NAME, 1, 4));
    WANT(FSTCH_DISK, make("", 1, 4));
    WANT(FSTCH_DISK, make(".", 1, 4));
    MUST(fopen(FILE_NAME, "r") == NULL);
    WANT(FSTCH_DONE, make(FILE_NAME, 1, 4));
    WANT(FSTCH_DISK, make(FILE_NAME, 16, 254));
    fstch_store store = FSTCH_CLOSED;
    uint32_t entries = 777, extents = 777;
    WANT(FSTCH_DONE, open_path(&store, FILE_NAME));
    WANT(FSTCH_DONE, fstch_check(&store, &entries, &extents));
    WANT(0, entries);
    WANT(4, extents);
    WANT(FSTCH_DONE, fstch_close(&store));
}

static void names_are_any_bytes(void) {
    static const char *const name = "\xff\xc3.disk";
    fstch_store store = FSTCH_CLOSED;
    remove(name);
    WANT(FSTCH_DONE, make(name, 1, 4));
    WANT(FSTCH_DONE, open_path(&store, name));
    WANT(FSTCH_DONE, fstch_close(&store));
    WANT(0, remove(name));
}

static void files_are_opened_once(void) {
    fstch_store store = new_store(1, 4), other = FSTCH_CLOSED;
    uint32_t slot = 777;
    WANT(true, fstch_is_open(&store));
    WANT(true, store.is_open);
    WANT(FSTCH_IS_OPEN, open_path(&store, FILE_NAME));
    WANT(FSTCH_IS_OPEN, open_path(&store, "nothing"));
    WANT(FSTCH_IS_OPEN, fstch_open_with(&store, FILE_NAME, FSTCH_NO_BARRIERS, &slot));
    WANT(FSTCH_IN_USE, fstch_open_with(&other, FILE_NAME, FSTCH_NO_BARRIERS, &slot));
    WANT(FSTCH_IN_USE, fstch_open(&other, FILE_NAME, &slot));
    WANT(true, is_zeros(&other));
    WANT(FSTCH_DISK, fstch_open(&other, "nothing", &slot));
    WANT(FSTCH_DISK, fstch_open(&other, "", &slot));
    WANT(FSTCH_DISK, fstch_open(&other, ".", &slot));
    WANT(777, slot);
    WANT(true, is_zeros(&other));
    WANT(FSTCH_DONE, put(&store, "key", "value"));
    WANT(FSTCH_DONE, fstch_close(&store));
    WANT(true, is_zeros(&store));
    WANT(FSTCH_NOT_OPEN, fstch_close(&store));
    WANT(FSTCH_DONE, fstch_open(&other, FILE_NAME, &slot));
    WANT(777, slot);
    WANT(FSTCH_DONE, fstch_close(&other));
    WANT(FSTCH_DONE, fstch_open_with(&other, FILE_NAME, FSTCH_NO_BARRIERS, &slot));
    WANT(true, has(&other, "key", NULL));
    WANT(FSTCH_DONE, put(&other, "key", "value"));
    WANT(FSTCH_DONE, fstch_sync(&other));
    WANT(777, slot);
    WANT(FSTCH_DONE, fstch_close(&other));
    WANT(FSTCH_DONE, open_path(&other, FILE_NAME));
    WANT(true, has(&other, "key", "value"));
    WANT(FSTCH_DONE, fstch_close(&other));
}

static void values_are_kept(void) {
    fstch_store store = new_store(1, 4);
    uint8_t into[8] = {9, 9, 9, 9, 9, 9, 9, 9};
    size_t length = 777;
    WANT(FSTCH_ABSENT, fstch_get(&store, "key", 3, into, sizeof into, &length));
    WANT(777, length);
    WANT(FSTCH_NO_KEY, delete_key(&store, "key"));
    WANT(FSTCH_DONE, put(&store, "key", "first"));
    WANT(FSTCH_DONE, put_by(&store, 0, "key", "value"));
    WANT(FSTCH_BUFFER_TOO_SMALL, fstch_get(&store, "key", 3, into, 4, &length));
    WANT(5, length);
    WANT(0, memcmp(into, "\11\11\11\11\11\11\11\11", 8));
    length = 777;
    WANT(FSTCH_BUFFER_TOO_SMALL, fstch_get(&store, "key", 3, into, 0, &length));
    WANT(5, length);
    WANT(FSTCH_DONE, fstch_get(&store, "key", 3, into, 5, &length));
    WANT(0, memcmp(into, "value\11\11\11", 8));
    WANT(FSTCH_DONE, fstch_put(&store, FSTCH_NO_WRITER, "k\0y", 3, into, 0));
    WANT(FSTCH_DONE, fstch_get(&store, "k\0y", 3, into, 0, &length));
    WANT(0, length);
    WANT(FSTCH_ABSENT, fstch_get(&store, "k", 1, into, sizeof into, &length));
    WANT(FSTCH_DONE, delete_key(&store, "key"));
    WANT(true, has(&store, "key", NULL));
    WANT(FSTCH_NO_KEY, delete_key(&store, "key"));
    WANT(FSTCH_DONE, fstch_close(&store));
}

static void keys_and_values_have_limits(void) {
    static const uint8_t key[33] = {'k'};
    static uint8_t value[FSTCH_MAX_VALUE + 1], into[FSTCH_MAX_VALUE + 1];
    fstch_store store = new_store(1, 4);
    size_t length = 777;
    memset(value, 'v', sizeof value);
    WANT(FSTCH_KEY_LENGTH, fstch_put(&store, FSTCH_NO_WRITER, key, 0, value, 1));
    WANT(FSTCH_KEY_LENGTH, fstch_put(&store, FSTCH_NO_WRITER, key, 33, value, 1));
    WANT(FSTCH_KEY_LENGTH, fstch_get(&store, key, 0, into, sizeof into, &length));
    WANT(FSTCH_KEY_LENGTH, fstch_get(&store, key, 33, into, sizeof into, &length));
    WANT(FSTCH_KEY_LENGTH, fstch_delete(&store, FSTCH_NO_WRITER, key, 0));
    WANT(FSTCH_KEY_LENGTH, fstch_delete(&store, FSTCH_NO_WRITER, key, 33));
    WANT(FSTCH_BAD_WRITER, put_by(&store, FSTCH_WRITERS, "key", "value"));
    WANT(FSTCH_BAD_WRITER, put_by(&store, FSTCH_NO_WRITER - 1, "key", "value"));
    WANT(FSTCH_BAD_WRITER, fstch_delete(&store, FSTCH_WRITERS, key, 32));
    WANT(FSTCH_VALUE_LENGTH, fstch_put(&store, FSTCH_NO_WRITER, key, 32, value, 32769));
    WANT(777, length);
    WANT(FSTCH_DONE, put_by(&store, FSTCH_WRITERS - 1, "key", "value"));
    WANT(FSTCH_DONE, fstch_put(&store, FSTCH_NO_WRITER, key, 32, value, 32768));
    WANT(FSTCH_DONE, fstch_get(&store, key, 32, into, sizeof into, &length));
    WANT(32768, length);
    WANT(0, memcmp(into, value, 32768));
    WANT(FSTCH_DONE, fstch_close(&store));

    remove(FILE_NAME);
    WANT(FSTCH_DONE, fstch_make(FILE_NAME, 1, 4, 64));
    WANT(FSTCH_DONE, open_path(&store, FILE_NAME));
    uint32_t entries = 777, extents = 777;
    WANT(FSTCH_DONE, fstch_check(&store, &entries, &extents));
    WANT(0, entries);
    WANT(4, extents);
    WANT(FSTCH_VALUE_LENGTH, fstch_put(&store, FSTCH_NO_WRITER, key, 32, value, FSTCH_MAX_VALUE + 1));
    WANT(FSTCH_DONE, fstch_put(&store, FSTCH_NO_WRITER, key, 32, value, FSTCH_MAX_VALUE));
    WANT(FSTCH_DONE, fstch_get(&store, key, 32, into, sizeof into, &length));
    WANT(FSTCH_MAX_VALUE, length);
    WANT(FSTCH_DONE, fstch_close(&store));
}

static void an_index_fills_up(void) {
    fstch_store store = new_store(1, 4);
    char key[8];
    for (int number = 0; number < 64; number++) {
        snprintf(key, sizeof key, "%d", number);
        WANT(FSTCH_DONE, put(&store, key, "value"));
    }
    WANT(FSTCH_INDEX_FULL, put(&store, "more", "value"));
    WANT(FSTCH_DONE, put(&store, "63", "another"));
    WANT(FSTCH_DONE, delete_key(&store, "0"));
    WANT(FSTCH_DONE, put(&store, "more", "value"));
    WANT(FSTCH_DONE, fstch_close(&store));
}

/* Three extents of 65,536 bytes, of which one stays empty: two times a value of 32,768 bytes with its frame, and a short one. */
static void extents_are_won_back(void) {
    static uint8_t value[32768], into[32768];
    fstch_store store = new_store_by_hand(1, 3);
    size_t length = 0;
    WANT(FSTCH_NO_SUCH_EXTENT, fstch_reclaim(&store, 3));
    WANT(FSTCH_EMPTY_EXTENT, fstch_reclaim(&store, 0));
    WANT(FSTCH_DONE, put(&store, "short", "value"));
    WANT(FSTCH_OPEN_EXTENT, fstch_reclaim(&store, 0));
    memset(value, 1, sizeof value);
    WANT(FSTCH_DONE, fstch_put(&store, FSTCH_NO_WRITER, "long", 4, value, sizeof value));
    memset(value, 2, sizeof value);
    WANT(FSTCH_DONE, fstch_put(&store, FSTCH_NO_WRITER, "long", 4, value, sizeof value));
    WANT(FSTCH_NO_SPACE, fstch_put(&store, FSTCH_NO_WRITER, "other", 5, value, sizeof value));
    WANT(true, has(&store, "other", NULL));
    WANT(FSTCH_DONE, fstch_reclaim(&store, 0));
    WANT(FSTCH_DONE, fstch_put(&store, FSTCH_NO_WRITER, "other", 5, value, 32000));
    WANT(FSTCH_DONE, fstch_sync(&store));
    WANT(true, has(&store, "short", "value"));
    WANT(FSTCH_DONE, fstch_get(&store, "long", 4, into, sizeof into, &length));
    WANT(0, memcmp(into, value, sizeof value));
    WANT(FSTCH_DONE, fstch_close(&store));
}

/* Puts that win room back, in extents of 65,536 bytes: a frame has 16 bytes beside its key and its value. */

enum { EXTENT = 65536, LONGEST = 32768 };

/* Puts a value of so many bytes, all of this letter. */
static int32_t put_letters(fstch_store *store, const char *key, uint8_t letter, size_t length) {
    static uint8_t value[LONGEST];
    memset(value, letter, length);
    return fstch_put(store, FSTCH_NO_WRITER, key, strlen(key), value, length);
}

/* Whether the key has this value. */
static bool has_letters(const fstch_store *store, const char *key, uint8_t letter, size_t wanted) {
    static uint8_t value[LONGEST], into[LONGEST];
    size_t length = 0;
    memset(value, letter, wanted);
    int32_t answer = fstch_get(store, key, strlen(key), into, sizeof into, &length);
    return answer == FSTCH_DONE && length == wanted && memcmp(into, value, wanted) == 0;
}

static const char *key_of(int number) {
    static char key[16];
    snprintf(key, sizeof key, "%d", number);
    return key;
}

static fstch_statistics statistics_of(const fstch_store *store) {
    fstch_statistics seen = {0, 0, 0, 0, 0, 0, 0, 0};
    WANT(FSTCH_DONE, fstch_stats(store, &seen));
    return seen;
}

enum { OVERWRITTEN = 10 };

/* That each key has the last letter that it was given. */
static void wants_letters(const fstch_store *store, const uint8_t *letters) {
    for (int number = 0; number < OVERWRITTEN; number++) {
        WANT(true, has_letters(store, key_of(number), letters[number], 5000));
    }
}

/* Overwrites some keys so often, and others never: these are moved. */
static void overwrite(fstch_store *store, uint8_t *letters, int count) {
    for (int turn = 0; turn < count; turn++) {
        int number = turn * turn % OVERWRITTEN;
        WANT(FSTCH_DONE, put_letters(store, key_of(number), (uint8_t)turn, 5000));
        letters[number] = (uint8_t)turn;
        WANT(true, statistics_of(store).empty_extents > 0);
    }
}

/* Four extents have room for 52 of these values. */
static void puts_win_room_back(void) {
    uint8_t letters[OVERWRITTEN];
    fstch_store store = new_store(1, 4);
    for (int number = 0; number < OVERWRITTEN; number++) {
        letters[number] = (uint8_t)(100 + number);
        WANT(FSTCH_DONE, put_letters(&store, key_of(number), letters[number], 5000));
    }
    overwrite(&store, letters, 500);
    wants_letters(&store, letters);
    WANT(FSTCH_DONE, fstch_sync(&store));
    WANT(FSTCH_DONE, fstch_close(&store));
    WANT(FSTCH_DONE, open_path(&store, FILE_NAME));
    wants_letters(&store, letters);
    overwrite(&store, letters, 50);
    wants_letters(&store, letters);
    WANT(FSTCH_DONE, fstch_close(&store));
}

static void wants_extent(const fstch_store *store, uint32_t extent, uint32_t live, uint32_t filled) {
    uint32_t seen_live = 777, seen_filled = 777;
    WANT(FSTCH_DONE, fstch_extent(store, extent, &seen_live, &seen_filled));
    WANT(live, seen_live);
    WANT(filled, seen_filled);
}

/* A long value has 32,785 bytes with its key and frame, and a short one 20: what is moved goes behind what was put last. */
static void the_extent_with_the_least_is_won_back(void) {
    fstch_store store = new_store(1, 5);
    for (int number = 0; number < 4; number++) {
        WANT(FSTCH_DONE, put_letters(&store, key_of(number), 'a', LONGEST));
        WANT(FSTCH_DONE, put_letters(&store, key_of(number + 4), 'a', 3));
    }
    WANT(FSTCH_DONE, delete_key(&store, "1"));
    WANT(FSTCH_DONE, delete_key(&store, "2"));
    WANT(FSTCH_DONE, delete_key(&store, "6"));
    WANT(FSTCH_DONE, put_letters(&store, "8", 'a', LONGEST));
    wants_extent(&store, 0, 32785 + 20, 32785 + 20);
    wants_extent(&store, 1, 20, 32785 + 20);
    wants_extent(&store, 2, 32785, 32785);
    wants_extent(&store, 3, 32785 + 20, 32785 + 20);
    wants_extent(&store, 4, 0, 0);
    WANT(FSTCH_DONE, put_letters(&store, "9", 'a', LONGEST));
    wants_extent(&store, 0, 32785 + 20, 32785 + 20);
    wants_extent(&store, 1, 32785, 32785);
    wants_extent(&store, 2, 32785 + 20, 32785 + 20);
    wants_extent(&store, 3, 32785 + 20, 32785 + 20);
    wants_extent(&store, 4, 0, 0);
    WANT(true, has(&store, "5", "aaa"));
    WANT(FSTCH_DONE, fstch_close(&store));
}

/* Three of the longest values: none of their extents has room for another. */
static void a_full_store_is_told(void) {
    fstch_store store = new_store(1, 4);
    WANT(FSTCH_DONE, put_letters(&store, "a", 'a', LONGEST));
    WANT(FSTCH_DONE, put_letters(&store, "b", 'b', LONGEST));
    WANT(FSTCH_DONE, put_letters(&store, "c", 'c', LONGEST));
    WANT(FSTCH_NO_SPACE, put_letters(&store, "d", 'd', LONGEST));
    WANT(FSTCH_NO_SPACE, put_letters(&store, "a", 'd', LONGEST));
    WANT(true, statistics_of(&store).live_bytes > 2 * (EXTENT - LONGEST - 1 - 16));
    WANT(true, has(&store, "d", NULL));
    WANT(true, has_letters(&store, "a", 'a', LONGEST));
    WANT(true, has_letters(&store, "b", 'b', LONGEST));
    WANT(true, has_letters(&store, "c", 'c', LONGEST));
    for (int turn = 0; turn < 10; turn++) {
        WANT(FSTCH_DONE, delete_key(&store, turn % 2 == 0 ? "a" : "d"));
        WANT(FSTCH_DONE, put_letters(&store, turn % 2 == 0 ? "d" : "a", (uint8_t)turn, LONGEST));
    }
    WANT(true, has_letters(&store, "a", 9, LONGEST));
    WANT(true, has_letters(&store, "b", 'b', LONGEST));
    WANT(true, has_letters(&store, "c", 'c', LONGEST));
    WANT(FSTCH_DONE, fstch_close(&store));
}

/* Two extents have so many bytes more in use than leave room for a longest value, and the one that is appended to has a short value, or none. */
static fstch_store store_at_the_bound(size_t more, bool has_short) {
    fstch_store store = new_store(1, 4);
    WANT(FSTCH_DONE, put_letters(&store, "a", 'a', EXTENT - LONGEST - 2 * 17 + more));
    WANT(FSTCH_DONE, put_letters(&store, "gone", 'x', LONGEST - 3 - more));
    WANT(FSTCH_DONE, put_letters(&store, "b", 'b', EXTENT - LONGEST - 2 * 17 + more));
    WANT(FSTCH_DONE, put_letters(&store, "gone", 'x', LONGEST - 3 - more));
    WANT(FSTCH_DONE, put_letters(&store, "c", 'c', 3));
    WANT(FSTCH_DONE, put_letters(&store, "gone", 'x', LONGEST));
    WANT(FSTCH_DONE, delete_key(&store, "gone"));
    if (!has_short) {
        WANT(FSTCH_DONE, delete_key(&store, "c"));
    }
    return store;
}

/* The header's bound is 65,502 bytes here: with as many a put is done, and with 22 more it may be refused. */
static void the_bound_is_met(void) {
    static const struct {
        size_t more;
        bool has_short;
        uint64_t live;
        int32_t answer;
    } cases[] = {{0, false, 65502, FSTCH_DONE}, {0, true, 65522, FSTCH_DONE}, {1, true, 65524, FSTCH_NO_SPACE}};
    for (size_t number = 0; number < sizeof cases / sizeof *cases; number++) {
        fstch_store store = store_at_the_bound(cases[number].more, cases[number].has_short);
        WANT(65502, (4 - 2) * (EXTENT - (LONGEST + 1 + 16)));
        WANT(cases[number].live, statistics_of(&store).live_bytes);
        WANT(cases[number].answer, put_letters(&store, "d", 'd', LONGEST));
        WANT(cases[number].answer == FSTCH_DONE, has_letters(&store, "d", 'd', LONGEST));
        WANT(1, statistics_of(&store).empty_extents);
        WANT(FSTCH_DONE, fstch_close(&store));
    }
}

enum { MOST_KEYS = 64 };

/* What each key has: so many bytes of a letter, and none where the length is 0. */
typedef struct {
    uint8_t letter;
    size_t length;
} letters_of_key;

static void wants_each_key(const fstch_store *store, const letters_of_key *keys) {
    uint32_t count = 0;
    for (int number = 0; number < MOST_KEYS; number++) {
        WANT(true, keys[number].length == 0 || has_letters(store, key_of(number), keys[number].letter, keys[number].length));
        count += keys[number].length > 0;
    }
    WANT(count, statistics_of(store).keys);
}

/* A number below this one, the next of many that look like chance. */
static uint32_t below(uint32_t most) {
    static uint64_t state = 1;
    state = state * 6364136223846793005u + 1442695040888963407u;
    return (uint32_t)(state >> 33) % most;
}

/* Puts values of any length; where one is refused there is more live than the header says. */
static int put_many(fstch_store *store, letters_of_key *keys, int count) {
    int refused = 0;
    for (int turn = 0; turn < count; turn++) {
        int number = (int)below(MOST_KEYS);
        letters_of_key next = {(uint8_t)turn, 1 + below(6000)};
        uint64_t most = 2 * (EXTENT - strlen(key_of(number)) - next.length - 16);
        int32_t answer = put_letters(store, key_of(number), next.letter, next.length);
        if (answer == FSTCH_DONE) {
            keys[number] = next;
        } else {
            WANT(FSTCH_NO_SPACE, answer);
            WANT(true, statistics_of(store).live_bytes > most);
            refused++;
        }
        WANT(true, statistics_of(store).empty_extents > 0);
    }
    return refused;
}

/* Round after round: what 64 keys have isn't always room for. */
static void no_put_is_refused_below_the_bound(void) {
    letters_of_key keys[MOST_KEYS];
    int refused = 0;
    fstch_store store = new_store(1, 4);
    memset(keys, 0, sizeof keys);
    for (int round = 0; round < 20; round++) {
        refused += put_many(&store, keys, 100);
        wants_each_key(&store, keys);
        for (int number = 0; number < MOST_KEYS; number += 5) {
            WANT(keys[number].length > 0 ? FSTCH_DONE : FSTCH_NO_KEY, delete_key(&store, key_of(number)));
            keys[number].length = 0;
        }
        WANT(FSTCH_DONE, fstch_sync(&store));
    }
    WANT(true, refused > 0);
    WANT(FSTCH_DONE, fstch_close(&store));
}

static void entries_are_told(void) {
    static const char *const keys[] = {"a", "bc", "the longest key that may be here"};
    fstch_store store = new_store(1, 4);
    uint8_t key[FSTCH_MAX_KEY];
    size_t key_length = 777, value_length = 777;
    uint32_t entries = 777, extents = 777;
    WANT(FSTCH_ABSENT, fstch_entry(&store, 0, key, sizeof key, &key_length, &value_length));
    WANT(777, key_length);
    for (size_t number = 0; number < 3; number++) {
        WANT(FSTCH_DONE, fstch_put(&store, FSTCH_NO_WRITER, keys[number], strlen(keys[number]), key, number));
    }
    WANT(FSTCH_DONE, fstch_check(&store, &entries, &extents));
    WANT(3, entries);
    WANT(4, extents);
    int seen[3] = {0, 0, 0};
    for (uint32_t number = 0; number < 3; number++) {
        memset(key, 'x', sizeof key);
        WANT(FSTCH_DONE, fstch_entry(&store, number, key, sizeof key, &key_length, &value_length));
        MUST(value_length < 3);
        WANT(strlen(keys[value_length]), key_length);
        WANT(0, memcmp(keys[value_length], key, key_length));
        WANT('x', key_length < sizeof key ? key[key_length] : 'x');
        seen[value_length]++;
        memset(key, 'x', sizeof key);
        WANT(FSTCH_BUFFER_TOO_SMALL, fstch_entry(&store, number, key, key_length - 1, &key_length, &value_length));
        WANT('x', key[0]);
        WANT(strlen(keys[value_length]), key_length);
    }
    WANT(true, seen[0] == 1 && seen[1] == 1 && seen[2] == 1);
    WANT(FSTCH_ABSENT, fstch_entry(&store, 3, key, sizeof key, &key_length, &value_length));
    WANT(FSTCH_ABSENT, fstch_entry(&store, UINT32_MAX, key, sizeof key, &key_length, &value_length));
    WANT(FSTCH_DONE, fstch_close(&store));
}

#define MANY_K "kkkkkkkkkkkkkkkkkkkkkkkkkkkkkkk"

/* Keys in their order; in a store the value of each is as long as its number here. */
static const struct {
    const char *bytes;
    size_t length;
} IN_ORDER[] = {{"\0", 1}, {"a", 1},     {"ab", 2},        {"ab\0", 3}, {"abc", 3},
                {"b", 1},  {MANY_K, 31}, {MANY_K "k", 32}, {"\xff", 1}, {"\xff\xff", 2}};

enum { KEYS = 10 };

/* The number behind them, which no key has. */
static const size_t NONE = KEYS;

/* What a call tells of a key. */
typedef struct {
    uint8_t key[FSTCH_MAX_KEY];
    size_t key_length, value_length;
} told;

static told untold(void) {
    told nothing;
    memset(nothing.key, 'x', sizeof nothing.key);
    nothing.key_length = nothing.value_length = 777;
    return nothing;
}

/* That an answer tells the key of this number and nothing behind it; or nothing at all where there is no such key. */
static void wants_key(size_t number, int32_t answer, told seen) {
    if (number == NONE) {
        WANT(FSTCH_ABSENT, answer);
        WANT(777, seen.key_length);
        WANT(777, seen.value_length);
        WANT('x', seen.key[0]);
        return;
    }
    WANT(FSTCH_DONE, answer);
    WANT(IN_ORDER[number].length, seen.key_length);
    WANT(number, seen.value_length);
    MUST(seen.key_length <= sizeof seen.key);
    WANT(0, memcmp(IN_ORDER[number].bytes, seen.key, seen.key_length));
    WANT('x', seen.key_length < sizeof seen.key ? seen.key[seen.key_length] : 'x');
}

static void wants_next(const fstch_store *store, const void *from, size_t from_length, size_t number) {
    told seen = untold();
    int32_t answer = fstch_next(store, from, from_length, seen.key, sizeof seen.key, &seen.key_length, &seen.value_length);
    wants_key(number, answer, seen);
}

static void wants_previous(const fstch_store *store, const void *before, size_t before_length, size_t number) {
    told seen = untold();
    int32_t answer = fstch_previous(store, before, before_length, seen.key, sizeof seen.key, &seen.key_length, &seen.value_length);
    wants_key(number, answer, seen);
}

static void wants_last(const fstch_store *store, size_t number) {
    told seen = untold();
    int32_t answer = fstch_last(store, seen.key, sizeof seen.key, &seen.key_length, &seen.value_length);
    wants_key(number, answer, seen);
}

/* A store with these keys, which are put in another order. */
static fstch_store store_of_keys(void) {
    fstch_store store = new_store(1, 4);
    for (size_t turn = 0; turn < KEYS; turn++) {
        size_t number = turn * 7 % KEYS;
        WANT(FSTCH_DONE, fstch_put(&store, FSTCH_NO_WRITER, IN_ORDER[number].bytes, IN_ORDER[number].length, MANY_K, number));
    }
    WANT(FSTCH_DONE, put(&store, "aa", "value"));
    WANT(FSTCH_DONE, delete_key(&store, "aa"));
    return store;
}

static void keys_are_in_order(void) {
    fstch_store store = store_of_keys();
    uint8_t place[FSTCH_MAX_KEY + 1];
    wants_next(&store, "", 0, 0);
    wants_previous(&store, "", 0, NONE);
    wants_last(&store, KEYS - 1);
    for (size_t number = 0; number < KEYS; number++) {
        size_t length = IN_ORDER[number].length;
        memcpy(place, IN_ORDER[number].bytes, length);
        place[length] = 0;
        wants_next(&store, place, length, number);
        wants_next(&store, place, length + 1, number + 1);
        wants_previous(&store, place, length, number > 0 ? number - 1 : NONE);
        wants_previous(&store, place, length + 1, number);
    }
    WANT(FSTCH_DONE, fstch_close(&store));
}

/* A place of 40 bytes comes behind each key that it begins with. */
static void keys_are_found_by_places_of_any_length(void) {
    fstch_store store = store_of_keys();
    uint8_t place[40];
    memset(place, 0, sizeof place);
    wants_next(&store, place, sizeof place, 1);
    wants_previous(&store, place, sizeof place, 0);
    memset(place, 'k', sizeof place);
    wants_next(&store, place, sizeof place, 8);
    wants_previous(&store, place, sizeof place, 7);
    place[31] = 'j';
    wants_next(&store, place, sizeof place, 7);
    wants_previous(&store, place, sizeof place, 6);
    memset(place, 0xff, sizeof place);
    wants_next(&store, place, sizeof place, NONE);
    wants_previous(&store, place, sizeof place, KEYS - 1);
    wants_next(&store, "aa", 2, 2);
    wants_previous(&store, "aa", 2, 1);
    WANT(FSTCH_DONE, fstch_close(&store));
    store = new_store(1, 4);
    wants_next(&store, "", 0, NONE);
    wants_previous(&store, place, sizeof place, NONE);
    wants_last(&store, NONE);
    WANT(FSTCH_DONE, fstch_close(&store));
}

/* By the header's lines; each key is deleted as it is reached. */
static void keys_change_while_they_are_gone_over(void) {
    fstch_store store = store_of_keys();
    uint8_t from[FSTCH_MAX_KEY + 1], key[FSTCH_MAX_KEY];
    size_t from_length = 0, length, value_length, number = 0;
    while (fstch_next(&store, from, from_length, key, sizeof key, &length, &value_length) == FSTCH_DONE) {
        WANT(number++, value_length);
        WANT(FSTCH_DONE, fstch_delete(&store, FSTCH_NO_WRITER, key, length));
        WANT(FSTCH_DONE, put(&store, "\1", "new"));
        WANT(FSTCH_DONE, delete_key(&store, "\1"));
        memcpy(from, key, length);
        from[length] = 0;
        from_length = length + 1;
    }
    WANT(KEYS, number);
    wants_last(&store, NONE);
    WANT(FSTCH_DONE, fstch_close(&store));
}

/* That an answer tells the longest key's length and that of its value alone. */
static void wants_more_room(int32_t answer, told seen) {
    WANT(FSTCH_BUFFER_TOO_SMALL, answer);
    WANT(32, seen.key_length);
    WANT(5, seen.value_length);
    WANT('x', seen.key[0]);
}

static void keys_need_room(void) {
    static const size_t rooms[] = {0, 1, 31};
    fstch_store store = new_store(1, 4);
    WANT(FSTCH_DONE, put(&store, MANY_K "k", "value"));
    for (size_t number = 0; number < 3; number++) {
        told seen = untold();
        int32_t answer = fstch_next(&store, "", 0, seen.key, rooms[number], &seen.key_length, &seen.value_length);
        wants_more_room(answer, seen);
        seen = untold();
        answer = fstch_previous(&store, "l", 1, seen.key, rooms[number], &seen.key_length, &seen.value_length);
        wants_more_room(answer, seen);
        seen = untold();
        answer = fstch_last(&store, seen.key, rooms[number], &seen.key_length, &seen.value_length);
        wants_more_room(answer, seen);
    }
    told seen = untold();
    WANT(FSTCH_DONE, put(&store, "a", ""));
    WANT(FSTCH_DONE, fstch_next(&store, "", 0, seen.key, 1, &seen.key_length, &seen.value_length));
    WANT(1, seen.key_length);
    WANT(0, seen.value_length);
    WANT(0, memcmp(seen.key, "ax", 2));
    WANT(FSTCH_DONE, fstch_close(&store));
}

/* A frame has 16 bytes beside its key and its value. */
static void extents_are_measured(void) {
    fstch_store store = new_store(1, 4);
    uint32_t live = 777, filled = 777;
    WANT(FSTCH_NO_SUCH_EXTENT, fstch_extent(&store, 4, &live, &filled));
    WANT(777, live);
    WANT(777, filled);
    WANT(FSTCH_DONE, put(&store, "key", "value"));
    WANT(FSTCH_DONE, put(&store, "key", "other"));
    WANT(FSTCH_DONE, put(&store, "more", ""));
    WANT(FSTCH_DONE, fstch_extent(&store, 0, &live, &filled));
    WANT(24 + 20, live);
    WANT(24 + 24 + 20, filled);
    WANT(FSTCH_DONE, fstch_extent(&store, 3, &live, &filled));
    WANT(0, live);
    WANT(0, filled);
    WANT(FSTCH_DONE, fstch_close(&store));
}

static void changes_are_unsynced(void) {
    fstch_store store = new_store(1, 4);
    uint32_t changes = 777;
    WANT(FSTCH_DONE, fstch_unsynced(&store, &changes));
    WANT(0, changes);
    WANT(FSTCH_DONE, put(&store, "key", "value"));
    WANT(FSTCH_DONE, fstch_unsynced(&store, &changes));
    WANT(true, changes > 0);
    WANT(FSTCH_DONE, fstch_sync(&store));
    WANT(FSTCH_DONE, fstch_unsynced(&store, &changes));
    WANT(0, changes);
    WANT(FSTCH_DONE, fstch_close(&store));
}

/* That these are told, and as many changes as by fstch_unsynced. */
static void wants_statistics(const fstch_store *store, fstch_statistics wanted) {
    fstch_statistics seen = {777, 777, 777, 777, 777, 777, 777, 777};
    uint32_t changes = 0;
    WANT(FSTCH_DONE, fstch_unsynced(store, &changes));
    WANT(FSTCH_DONE, fstch_stats(store, &seen));
    WANT(wanted.keys, seen.keys);
    WANT(changes, seen.unsynced);
    WANT(wanted.live_bytes, seen.live_bytes);
    WANT(wanted.file_bytes, seen.file_bytes);
    WANT(wanted.extents, seen.extents);
    WANT(wanted.empty_extents, seen.empty_extents);
    WANT(wanted.syncs, seen.syncs);
    WANT(wanted.waves, seen.waves);
}

/* The file has 67 blocks: 2, that of the index, and 16 for each extent. Puts are written in three waves, and a delete in one. */
static void statistics_are_told(void) {
    fstch_store store = new_store(1, 4);
    fstch_statistics wanted = {0, 0, 0, 67 * 4096, 4, 4, 0, 0};
    wants_statistics(&store, wanted);
    WANT(FSTCH_DONE, put(&store, "key", "value"));
    WANT(FSTCH_DONE, put(&store, "key", "other"));
    WANT(FSTCH_DONE, put(&store, "more", ""));
    wanted.keys = 2;
    wanted.live_bytes = 24 + 20;
    wanted.empty_extents = 3;
    wants_statistics(&store, wanted);
    WANT(FSTCH_DONE, fstch_sync(&store));
    wanted.syncs = 1;
    wanted.waves = 3;
    wants_statistics(&store, wanted);
    WANT(FSTCH_DONE, delete_key(&store, "key"));
    wanted.keys = 1;
    wanted.live_bytes = 20;
    wants_statistics(&store, wanted);
    WANT(FSTCH_DONE, fstch_sync(&store));
    wanted.syncs = 2;
    wanted.waves = 4;
    wants_statistics(&store, wanted);
    WANT(FSTCH_DONE, fstch_sync(&store)); /* nothing is left to be written */
    wanted.syncs = 3;
    wants_statistics(&store, wanted);
    WANT(FSTCH_DONE, fstch_close(&store));
    WANT(FSTCH_DONE, open_path(&store, FILE_NAME));
    wanted.syncs = wanted.waves = 0;
    wants_statistics(&store, wanted);
    WANT(FSTCH_DONE, fstch_close(&store));
}

/* As in extents_are_won_back: the long value is replaced, and the new one stands in an extent of its own. */
static void statistics_follow_reclaims(void) {
    static const uint8_t value[32768] = {0};
    fstch_store store = new_store(1, 3);
    fstch_statistics wanted = {2, 0, 26 + 32788, 51 * 4096, 3, 1, 0, 0};
    WANT(FSTCH_DONE, put(&store, "short", "value"));
    WANT(FSTCH_DONE, fstch_put(&store, FSTCH_NO_WRITER, "long", 4, value, sizeof value));
    WANT(FSTCH_DONE, fstch_put(&store, FSTCH_NO_WRITER, "long", 4, value, sizeof value));
    wants_statistics(&store, wanted);
    WANT(FSTCH_DONE, fstch_reclaim(&store, 0));
    wanted.empty_extents = 2;
    wants_statistics(&store, wanted);
    WANT(FSTCH_DONE, delete_key(&store, "short"));
    WANT(FSTCH_DONE, delete_key(&store, "long"));
    wanted.keys = 0;
    wanted.live_bytes = 0;
    wants_statistics(&store, wanted);
    WANT(FSTCH_DONE, fstch_reclaim(&store, 1));
    wanted.empty_extents = 3;
    wants_statistics(&store, wanted);
    WANT(FSTCH_DONE, fstch_close(&store));
}

/* What is read needs a store that is const alone, and an open no place for a slot. */
static void reads_take_a_const_store(void) {
    fstch_store store = new_store(1, 4);
    WANT(FSTCH_DONE, put(&store, "key", "value"));
    WANT(FSTCH_DONE, fstch_sync(&store));
    WANT(FSTCH_DONE, fstch_close(&store));
    WANT(FSTCH_DONE, fstch_open(&store, FILE_NAME, NULL));
    WANT(FSTCH_IS_OPEN, fstch_open(&store, FILE_NAME, NULL));
    const fstch_store *read = &store;
    uint8_t into[8];
    size_t length = 0;
    WANT(FSTCH_DONE, fstch_get(read, "key", 3, into, sizeof into, &length));
    WANT(5, length);
    WANT(FSTCH_DONE, fstch_close(&store));
}

static void syncs_make_changes_last(void) {
    fstch_store store = new_store(1, 4);
    WANT(FSTCH_DONE, put(&store, "kept", "value"));
    WANT(FSTCH_DONE, put(&store, "deleted", "value"));
    WANT(FSTCH_DONE, put_by(&store, FSTCH_WRITERS - 1, "empty", ""));
    WANT(FSTCH_DONE, fstch_sync(&store));
    WANT(FSTCH_DONE, delete_key(&store, "deleted"));
    WANT(FSTCH_DONE, fstch_sync(&store));
    WANT(FSTCH_DONE, fstch_sync(&store)); /* nothing is left to be written */
    WANT(FSTCH_DONE, put(&store, "kept", "lost"));
    WANT(FSTCH_DONE, put(&store, "new", "lost"));
    WANT(FSTCH_DONE, fstch_close(&store));
    WANT(FSTCH_DONE, open_path(&store, FILE_NAME));
    WANT(true, has(&store, "kept", "value"));
    WANT(true, has(&store, "deleted", NULL));
    WANT(true, has(&store, "new", NULL));
    WANT(true, has(&store, "empty", ""));
    WANT(FSTCH_DONE, delete_key(&store, "empty"));
    WANT(FSTCH_NO_KEY, delete_key(&store, "empty"));
    WANT(FSTCH_DONE, fstch_sync(&store));
    WANT(FSTCH_DONE, fstch_sync(&store));
    WANT(FSTCH_DONE, fstch_close(&store));
}

/* With 32 extents all puts till then have room, and with 3 they win it back. */
static void patches_in_memory_have_a_limit(void) {
    static const uint32_t extents[] = {32, 3};
    for (int number = 0; number < 2; number++) {
        fstch_store store = new_store(1, extents[number]);
        int puts = 0;
        int32_t answer = put(&store, "key", key_of(0));
        while (answer == FSTCH_DONE && puts < 65536) {
            answer = put(&store, "key", key_of(++puts));
        }
        WANT(FSTCH_TOO_MANY_LIVE, answer);
        WANT(true, has(&store, "key", key_of(puts - 1)));
        WANT(FSTCH_DONE, fstch_sync(&store));
        WANT(FSTCH_DONE, put(&store, "key", "last"));
        WANT(true, has(&store, "key", "last"));
        WANT(FSTCH_DONE, fstch_close(&store));
    }
}

static void groups_are_kept_in_order(void) {
    fstch_store store = new_store(1, 4);
    uint32_t first = 777, second = 777, changes = 777;
    WANT(FSTCH_NO_SUCH_GROUP, fstch_group_pending(&store, 0, &changes));
    WANT(777, changes);
    WANT(FSTCH_DONE, fstch_group(&store, &first));
    WANT(FSTCH_DONE, fstch_group(&store, &second));
    WANT(0, first);
    WANT(1, second);
    WANT(FSTCH_DONE, fstch_group_pending(&store, first, &changes));
    WANT(0, changes);
    WANT(FSTCH_BAD_WRITER, fstch_group_engage(&store, first, FSTCH_WRITERS));
    WANT(FSTCH_BAD_WRITER, fstch_group_engage(&store, first, FSTCH_NO_WRITER));
    WANT(FSTCH_NO_SUCH_GROUP, fstch_group_engage(&store, 2, 0));
    WANT(FSTCH_DONE, fstch_group_engage(&store, first, 0));
    WANT(FSTCH_ENGAGED, fstch_group_engage(&store, first, 0));
    WANT(FSTCH_DONE, fstch_group_engage(&store, first, 1));
    WANT(FSTCH_DONE, put_by(&store, 2, "no group", "value"));
    WANT(FSTCH_DONE, put(&store, "no writer", "value"));
    WANT(FSTCH_DONE, fstch_group_pending(&store, first, &changes));
    WANT(0, changes);
    WANT(FSTCH_DONE, put_by(&store, 1, "data", "value"));
    WANT(FSTCH_DONE, fstch_group_pending(&store, first, &changes));
    WANT(true, changes > 0);
    WANT(FSTCH_ENGAGED, fstch_group_depend(&store, second, first));
    WANT(FSTCH_ENGAGED, fstch_group_close(&store, first));
    WANT(FSTCH_DONE, fstch_group_disengage(&store, first, 1));
    WANT(FSTCH_NOT_ENGAGED, fstch_group_disengage(&store, first, 1));
    WANT(FSTCH_BAD_WRITER, fstch_group_disengage(&store, first, FSTCH_WRITERS));
    WANT(FSTCH_DONE, fstch_group_disengage(&store, first, 0));
    WANT(FSTCH_NO_SUCH_GROUP, fstch_group_disengage(&store, 2, 0));
    WANT(FSTCH_SAME_GROUP, fstch_group_depend(&store, first, first));
    WANT(FSTCH_NO_SUCH_GROUP, fstch_group_depend(&store, first, 2));
    WANT(FSTCH_NO_SUCH_GROUP, fstch_group_depend(&store, 2, first));
    WANT(FSTCH_STARTED, fstch_group_depend(&store, first, second));
    WANT(FSTCH_DONE, fstch_group_depend(&store, second, first));
    WANT(FSTCH_SEALED, fstch_group_engage(&store, first, 0));
    WANT(FSTCH_DONE, fstch_group_engage(&store, second, 0));
    WANT(FSTCH_DONE, put_by(&store, 0, "name", "data"));
    WANT(FSTCH_DONE, fstch_group_disengage(&store, second, 0));
    WANT(FSTCH_DONE, fstch_group_close(&store, first));
    WANT(FSTCH_NO_SUCH_GROUP, fstch_group_close(&store, first));
    WANT(FSTCH_DONE, fstch_group_pending(&store, second, &changes));
    WANT(true, changes > 0);
    WANT(FSTCH_DONE, fstch_sync(&store));
    WANT(FSTCH_DONE, fstch_group_pending(&store, second, &changes));
    WANT(0, changes);
    for (uint32_t number = 2; number < 1024; number++) {
        WANT(FSTCH_DONE, fstch_group(&store, &first));
    }
    WANT(1023, first);
    WANT(FSTCH_TOO_MANY_GROUPS, fstch_group(&store, &first));
    WANT(1023, first);
    WANT(FSTCH_DONE, fstch_close(&store));
}

/* Behind a sync, where more than 512 groups were made, and each is closed or was never engaged. */
static void stores_begin_anew(void) {
    fstch_store store = new_store(1, 4);
    uint32_t group = 777, changes = 777;
    for (uint32_t number = 0; number < 512; number++) {
        WANT(FSTCH_DONE, fstch_group(&store, &group));
        WANT(FSTCH_DONE, fstch_group_close(&store, group));
    }
    WANT(FSTCH_DONE, fstch_sync(&store));
    WANT(FSTCH_DONE, fstch_group(&store, &group));
    WANT(512, group);
    WANT(FSTCH_DONE, fstch_group_engage(&store, group, 0));
    WANT(FSTCH_DONE, put_by(&store, 0, "key", "value"));
    WANT(FSTCH_DONE, fstch_group_disengage(&store, group, 0));
    WANT(FSTCH_DONE, fstch_sync(&store));
    WANT(FSTCH_DONE, fstch_group(&store, &group));
    WANT(513, group);
    WANT(FSTCH_DONE, fstch_group_close(&store, 512));
    WANT(FSTCH_DONE, fstch_group_pending(&store, 513, &changes));
    WANT(FSTCH_DONE, fstch_sync(&store));
    WANT(FSTCH_NO_SUCH_GROUP, fstch_group_pending(&store, 513, &changes));
    WANT(FSTCH_DONE, fstch_group(&store, &group));
    WANT(0, group);
    WANT(true, has(&store, "key", "value"));
    WANT(FSTCH_DONE, fstch_group_engage(&store, group, 0));
    WANT(FSTCH_DONE, put_by(&store, 0, "key", "other"));
    WANT(FSTCH_DONE, fstch_group_pending(&store, group, &changes));
    WANT(true, changes > 0);
    WANT(FSTCH_DONE, fstch_sync(&store));
    WANT(FSTCH_DONE, fstch_close(&store));
    WANT(FSTCH_DONE, open_path(&store, FILE_NAME));
    WANT(true, has(&store, "key", "other"));
    WANT(FSTCH_DONE, fstch_close(&store));
}

/* Overwrites bytes of the file. */
static void damage(long place, const uint8_t *with, size_t length) {
    FILE *file = fopen(FILE_NAME, "r+b");
    MUST(file != NULL);
    MUST(fseek(file, place, SEEK_SET) == 0 && fwrite(with, 1, length, file) == length && fclose(file) == 0);
}

static void wants_damaged(int32_t answer, uint32_t slot) {
    fstch_store store = FSTCH_CLOSED;
    uint32_t seen = 777;
    WANT(answer, fstch_open(&store, FILE_NAME, &seen));
    WANT(slot, seen);
    WANT(true, is_zeros(&store));
}

/* A file with one value, in slot 0: block 1 is the index, block 2 has the pointers, and the extents begin at block 3. */
static void file_with_a_value(void) {
    fstch_store store = new_store(1, 4);
    WANT(FSTCH_DONE, put(&store, "key", "value"));
    WANT(FSTCH_DONE, fstch_sync(&store));
    WANT(FSTCH_DONE, fstch_close(&store));
}

static void damaged_files_are_refused(void) {
    static const uint8_t bad[8] = {0xff, 0xff, 0xff, 0xff, 0xff, 0xff, 0xff, 0xff};
    static const uint8_t zeros[4096] = {0};
    uint8_t slot[64];
    file_with_a_value();
    damage(0, bad, sizeof bad);
    wants_damaged(FSTCH_BAD_SUPER, 777);
    file_with_a_value();
    damage(4096, bad, 1);
    wants_damaged(FSTCH_BAD_SLOT, 0);
    file_with_a_value();
    damage(2 * 4096, bad, sizeof bad);
    wants_damaged(FSTCH_BAD_POINTER, 777);
    file_with_a_value();
    damage(3 * 4096, bad, sizeof bad);
    wants_damaged(FSTCH_BAD_FRAME, 0);
    file_with_a_value();
    FILE *file = fopen(FILE_NAME, "rb");
    MUST(file != NULL && fseek(file, 4096, SEEK_SET) == 0 && fread(slot, 1, sizeof slot, file) == sizeof slot && fclose(file) == 0);
    damage(4096 + 64, slot, sizeof slot);
    wants_damaged(FSTCH_DUPLICATE_KEY, 1);
    file_with_a_value();
    file = fopen(FILE_NAME, "ab");
    MUST(file != NULL && fputc(0, file) == 0 && fclose(file) == 0);
    wants_damaged(FSTCH_FILE_SIZE, 777);
    file = fopen(FILE_NAME, "wb");
    MUST(file != NULL && fclose(file) == 0);
    wants_damaged(FSTCH_FILE_SIZE, 777);
    file = fopen(FILE_NAME, "wb");
    MUST(file != NULL && fwrite("short", 1, 5, file) == 5 && fclose(file) == 0);
    wants_damaged(FSTCH_FILE_SIZE, 777);
    file_with_a_value();
    damage(0, zeros, sizeof zeros);
    wants_damaged(FSTCH_BAD_SUPER, 777);
    /* 4,096 blocks are read, and are more than this store's; 4,097 are refused as they are */
    file_with_a_value();
    damage(4096 * 4096 - 1, bad, 1);
    wants_damaged(FSTCH_FILE_SIZE, 777);
    damage(4097 * 4096 - 1, bad, 1);
    wants_damaged(FSTCH_FILE_SIZE, 777);
}

/* The four pointers say that their extents are full, and no slot names what is in them: two are won back. */
static void no_extent_is_empty(void) {
    static const uint8_t full[32] = {0, 0, 0, 0, 0, 1, 0, 0, 0, 0, 0, 0, 0, 1, 0, 0, 0, 0, 0, 0, 0, 1, 0, 0, 0, 0, 0, 0, 0, 1, 0, 0};
    fstch_store store = new_store(1, 4);
    WANT(FSTCH_DONE, fstch_close(&store));
    damage(2 * 4096, full, sizeof full);
    WANT(FSTCH_DONE, fstch_open_with(&store, FILE_NAME, FSTCH_MANUAL, NULL));
    WANT(0, statistics_of(&store).empty_extents);
    WANT(FSTCH_NO_SPACE, put(&store, "key", "value"));
    WANT(FSTCH_DONE, fstch_close(&store));
    WANT(FSTCH_DONE, open_path(&store, FILE_NAME));
    WANT(FSTCH_DONE, put(&store, "key", "value"));
    WANT(true, has(&store, "key", "value"));
    wants_extent(&store, 0, 24, 24);
    wants_extent(&store, 1, 0, 0);
    wants_extent(&store, 2, 0, EXTENT);
    wants_extent(&store, 3, 0, EXTENT);
    WANT(FSTCH_DONE, fstch_close(&store));
}

/* The first three are full and were won back as often as can be counted, or two of them: then the third one is won back. */
static void spent_extents_are_left_alone(void) {
    static const uint8_t spent[24] = {255, 255, 255, 255, 0, 1, 0, 0, 255, 255, 255, 255, 0, 1, 0, 0, 255, 255, 255, 255, 0, 1, 0, 0};
    for (int count = 2; count <= 3; count++) {
        fstch_store store = new_store(1, 4);
        WANT(FSTCH_DONE, fstch_close(&store));
        damage(2 * 4096, spent, sizeof spent);
        damage(2 * 4096 + 16, spent + (count == 2 ? 4 : 0), 1); /* (a 0, which makes its number lower, or what it was) */
        WANT(FSTCH_DONE, open_path(&store, FILE_NAME));
        WANT(FSTCH_GENERATION_SPENT, fstch_reclaim(&store, 0));
        WANT(count == 2 ? FSTCH_DONE : FSTCH_NO_SPACE, put(&store, "key", "value"));
        WANT(1, statistics_of(&store).empty_extents);
        wants_extent(&store, 0, 0, EXTENT);
        WANT(FSTCH_DONE, fstch_close(&store));
    }
}

static void answers_have_texts(void) {
    static const int answers[] = {0,  1,  4,  5,  17, 18, 27, 28, 29, 30, 31, 32, 33, 34, 38, 39, 40, 41, 42, 43, 44, 45, 46,
                                  47, 48, 49, 50, 51, 57, -1, -2, -4, -5, -6, -7, -8, -9};
    char text[64], cut[5] = "xxxx";
    for (size_t number = 0; number < sizeof answers / sizeof *answers; number++) {
        memset(text, 'x', sizeof text);
        size_t length = fstch_error_text(answers[number], text, sizeof text);
        MUST(0 < length && length < sizeof text);
        WANT(0, text[length]);
        WANT('x', length + 1 < sizeof text ? text[length + 1] : 'x');
        WANT(length, strlen(text));
        WANT(true, strcmp(text, "unknown answer") != 0);
        WANT(length, fstch_error_text(answers[number], cut, sizeof cut - 1));
        WANT(true, strncmp(text, cut, 3) == 0 && cut[strlen(text) < 3 ? strlen(text) : 3] == 0);
        WANT(length, fstch_error_text(answers[number], text, 0));
    }
    memset(text, 'x', sizeof text);
    WANT(4, fstch_error_text(FSTCH_DONE, text, sizeof text));
    WANT(0, memcmp(text, "done\0xxx", 8));
    WANT(22, fstch_error_text(FSTCH_ABSENT, text, 8));
    WANT(0, memcmp(text, "there i\0x", 9));
    WANT(14, fstch_error_text(100, text, sizeof text));
    WANT(0, strcmp(text, "unknown answer"));
    fstch_error_text(-3, text, sizeof text);
    WANT(0, strcmp(text, "unknown answer"));
    fstch_error_text(INT32_MIN, text, sizeof text);
    WANT(0, strcmp(text, "unknown answer"));
    WANT(FSTCH_VERSION, fstch_version());
}

int main(void) {
    closed_stores_are_refused();
    files_are_made();
    names_are_any_bytes();
    files_are_opened_once();
    values_are_kept();
    keys_and_values_have_limits();
    an_index_fills_up();
    extents_are_won_back();
    puts_win_room_back();
    the_extent_with_the_least_is_won_back();
    a_full_store_is_told();
    the_bound_is_met();
    no_put_is_refused_below_the_bound();
    entries_are_told();
    keys_are_in_order();
    keys_are_found_by_places_of_any_length();
    keys_change_while_they_are_gone_over();
    keys_need_room();
    extents_are_measured();
    changes_are_unsynced();
    statistics_are_told();
    statistics_follow_reclaims();
    reads_take_a_const_store();
    syncs_make_changes_last();
    patches_in_memory_have_a_limit();
    groups_are_kept_in_order();
    stores_begin_anew();
    damaged_files_are_refused();
    no_extent_is_empty();
    spent_extents_are_left_alone();
    answers_have_texts();
    return ended();
}
