/* The calls of library/core.h, which no program sees: on bytes in memory, as library/fstch.c calls them on those of a file. */
#include "core.h"
#include "wanting.h"

enum { BLOCK = 4096, FILE_NUMBER = 3 };

/* A file in memory. */
typedef struct {
    uint8_t *bytes;
    size_t length;
} memory;

static memory new_memory(uint32_t index_blocks, uint32_t extents, uint32_t extent_blocks) {
    uint8_t first[BLOCK];
    uint32_t blocks = 0;
    WANT(FSTCH_DONE, fstch_core_make(index_blocks, extents, extent_blocks, first, sizeof first, &blocks));
    memory made = {(uint8_t *)calloc(blocks, BLOCK), (size_t)blocks * BLOCK};
    MUST(blocks > 0 && made.bytes != NULL);
    memcpy(made.bytes, first, sizeof first);
    return made;
}

static memory copy_of(memory other) {
    memory copy = {(uint8_t *)malloc(other.length), other.length};
    MUST(copy.bytes != NULL);
    memcpy(copy.bytes, other.bytes, other.length);
    return copy;
}

static int32_t open_bytes(fstch_store *store, const void *bytes, size_t length) {
    uint32_t slot = 777;
    int32_t answer = fstch_core_open(store, FILE_NUMBER, true, false, (const uint8_t *)bytes, length, &slot);
    WANT(777, slot);
    return answer;
}

static int32_t open_memory(fstch_store *store, memory from) {
    return open_bytes(store, from.bytes, from.length);
}

/* What a cut of the power leaves of the writes behind the last sync: each of them has landed where the bit of its number is set. */
typedef uint32_t landed;

enum { MOST_LOOSE = 32 };

static const landed ALL = UINT32_MAX;

/* How many of the first events of the tape, at most so many, are behind the last barrier among them; and how many there are. */
static uint32_t count_loose(fstch_store *store, uint32_t most, uint32_t *events) {
    uint8_t bytes[BLOCK];
    uint32_t block = 777, loose = 0;
    bool is_barrier = false;
    for (*events = 0; *events < most && fstch_core_write(store, *events, &is_barrier, &block, bytes, sizeof bytes) == FSTCH_DONE; ++*events) {
        loose = is_barrier ? 0 : loose + 1;
    }
    return loose;
}

/* Does the first events of the tape, at most so many, of which a cut leaves these, and answers how many there were. */
static uint32_t write_some(fstch_store *store, memory to, uint32_t most, landed lands) {
    uint8_t bytes[BLOCK];
    uint32_t block = 777, events = 0;
    bool is_barrier = false;
    uint32_t loose = count_loose(store, most, &events), writes_behind = 0;
    MUST(loose <= MOST_LOOSE);
    for (uint32_t number = 0; number < events; number++) {
        WANT(FSTCH_DONE, fstch_core_write(store, number, &is_barrier, &block, bytes, sizeof bytes));
        MUST(((size_t)block + 1) * BLOCK <= to.length);
        bool is_loose = events - number <= loose;
        if (!is_barrier && (!is_loose || (lands >> writes_behind & 1) != 0)) {
            memcpy(to.bytes + (size_t)block * BLOCK, bytes, sizeof bytes);
        }
        writes_behind += is_loose;
    }
    return events;
}

static int32_t sync_to(fstch_store *store, memory to) {
    int32_t answer = fstch_core_sync(store);
    if (answer != FSTCH_DONE) {
        return answer;
    }
    write_some(store, to, UINT32_MAX, ALL);
    return fstch_core_synced(store, true);
}

static void closed_stores_are_refused(void) {
    fstch_store store = FSTCH_CLOSED;
    uint8_t into[4] = {1, 2, 3, 4};
    uint32_t block = 777;
    bool is_barrier = true;
    WANT(FSTCH_NOT_OPEN, fstch_core_sync(&store));
    WANT(FSTCH_NOT_OPEN, fstch_core_write(&store, 0, &is_barrier, &block, into, sizeof into));
    WANT(FSTCH_NOT_OPEN, fstch_core_synced(&store, true));
    WANT(FSTCH_NOT_OPEN, fstch_core_synced(&store, false));
    WANT(FSTCH_NOT_OPEN, fstch_core_renew(&store));
    WANT(-1, fstch_core_file(&store));
    WANT(false, fstch_core_barriers(&store));
    WANT(FSTCH_NOT_OPEN, fstch_core_close(&store));
    WANT(777, block);
    WANT(true, is_barrier);
    WANT(0, memcmp(into, "\1\2\3\4", 4));
    WANT(false, fstch_is_open(&store));
}

static void a_first_block_is_made(void) {
    uint8_t into[4] = {1, 2, 3, 4};
    uint32_t blocks = 777;
    WANT(FSTCH_GEOMETRY, fstch_core_make(0, 4, 0, into, sizeof into, &blocks));
    WANT(FSTCH_BUFFER_TOO_SMALL, fstch_core_make(1, 4, 0, into, sizeof into, &blocks));
    WANT(777, blocks);
    WANT(0, memcmp(into, "\1\2\3\4", 4));
}

static void bytes_are_opened(void) {
    static const uint8_t zeros[BLOCK];
    fstch_store store = FSTCH_CLOSED;
    memory file = new_memory(1, 4, 0);
    WANT(FSTCH_FILE_SIZE, open_bytes(&store, "short", 5));
    WANT(FSTCH_FILE_SIZE, open_bytes(&store, zeros, 0));
    WANT(FSTCH_BAD_SUPER, open_bytes(&store, zeros, sizeof zeros));
    WANT(false, fstch_is_open(&store));
    WANT(FSTCH_DONE, open_memory(&store, file));
    WANT(FSTCH_IS_OPEN, open_memory(&store, file));
    WANT(FILE_NUMBER, fstch_core_file(&store));
    WANT(true, fstch_core_barriers(&store));
    WANT(FSTCH_DONE, fstch_core_close(&store));
    WANT(FSTCH_NOT_OPEN, fstch_core_close(&store));
    uint32_t slot = 777;
    WANT(FSTCH_DONE, fstch_core_open(&store, FILE_NUMBER, false, true, file.bytes, file.length, &slot));
    WANT(777, slot);
    WANT(false, fstch_core_barriers(&store));
    WANT(FSTCH_DONE, fstch_core_close(&store));
    free(file.bytes);
}

/* Three extents of 65,536 bytes, of which one stays empty: one has a short value, and one that was replaced by that of the other. */
static void room_is_won_back_unless_by_hand(void) {
    static const uint8_t value[32768] = {0};
    memory file = new_memory(1, 3, 0);
    for (int is_manual = 0; is_manual < 2; is_manual++) {
        fstch_store store = FSTCH_CLOSED;
        WANT(FSTCH_DONE, fstch_core_open(&store, FILE_NUMBER, true, is_manual == 1, file.bytes, file.length, NULL));
        WANT(FSTCH_DONE, put(&store, "short", "value"));
        WANT(FSTCH_DONE, fstch_put(&store, FSTCH_NO_WRITER, "long", 4, value, sizeof value));
        WANT(FSTCH_DONE, fstch_put(&store, FSTCH_NO_WRITER, "long", 4, value, sizeof value));
        int32_t answer = fstch_put(&store, FSTCH_NO_WRITER, "other", 5, value, sizeof value);
        WANT(is_manual ? FSTCH_NO_SPACE : FSTCH_DONE, answer);
        WANT(true, has(&store, "short", "value"));
        WANT(FSTCH_DONE, fstch_core_close(&store));
    }
    free(file.bytes);
}

static void values_last(void) {
    fstch_store store = FSTCH_CLOSED;
    memory file = new_memory(1, 4, 0);
    WANT(FSTCH_DONE, open_memory(&store, file));
    WANT(FSTCH_DONE, put(&store, "one", "first"));
    WANT(FSTCH_DONE, put_by(&store, FSTCH_WRITERS - 1, "two", ""));
    WANT(FSTCH_DONE, sync_to(&store, file));
    WANT(FSTCH_DONE, put_by(&store, 0, "lost", "lost"));
    WANT(FSTCH_DONE, fstch_core_close(&store));
    WANT(FSTCH_DONE, open_memory(&store, file));
    WANT(true, has(&store, "one", "first"));
    WANT(true, has(&store, "two", ""));
    WANT(true, has(&store, "lost", NULL));
    WANT(FSTCH_DONE, delete_key(&store, "two"));
    WANT(FSTCH_NO_KEY, delete_key(&store, "two"));
    WANT(FSTCH_DONE, sync_to(&store, file));
    WANT(FSTCH_DONE, sync_to(&store, file)); /* nothing is left to be written */
    WANT(FSTCH_DONE, fstch_core_close(&store));
    free(file.bytes);
}

static void a_tape_is_read_by_numbers(void) {
    fstch_store store = FSTCH_CLOSED;
    memory file = new_memory(1, 4, 0);
    uint8_t into[BLOCK];
    uint32_t block = 777, events = 0;
    bool is_barrier = true;
    memset(into, 9, sizeof into);
    WANT(FSTCH_DONE, open_memory(&store, file));
    WANT(FSTCH_ABSENT, fstch_core_write(&store, 0, &is_barrier, &block, into, sizeof into));
    WANT(777, block);
    WANT(true, is_barrier);
    WANT(9, into[0]);
    WANT(FSTCH_DONE, put(&store, "a", "b"));
    WANT(FSTCH_DONE, fstch_core_sync(&store));
    WANT(FSTCH_BUFFER_TOO_SMALL, fstch_core_write(&store, 0, &is_barrier, &block, into, 9));
    WANT(false, is_barrier);
    WANT(9, into[0]);
    WANT(FSTCH_DONE, fstch_core_write(&store, 0, &is_barrier, &block, into, sizeof into));
    WANT(false, is_barrier);
    WANT(true, block < file.length / BLOCK);
    WANT(FSTCH_ABSENT, fstch_core_write(&store, UINT32_MAX, &is_barrier, &block, into, sizeof into));
    /* the last one is a barrier, of which nothing is copied */
    WANT(0, count_loose(&store, UINT32_MAX, &events));
    block = 777;
    memset(into, 9, sizeof into);
    WANT(FSTCH_DONE, fstch_core_write(&store, events - 1, &is_barrier, &block, into, 0));
    WANT(true, is_barrier);
    WANT(777, block);
    WANT(9, into[0]);
    /* the file hasn't got it */
    WANT(FSTCH_DONE, fstch_core_synced(&store, false));
    WANT(FSTCH_ABSENT, fstch_core_write(&store, 0, &is_barrier, &block, into, sizeof into));
    WANT(FSTCH_NO_SYNC, fstch_core_sync(&store));
    WANT(true, has(&store, "a", "b"));
    WANT(FSTCH_DONE, fstch_core_close(&store));
    free(file.bytes);
}

/* What is left behind the first events of a sync opens, and each key has what it had before or has now. */
static void leaves_a_store(fstch_store *store, memory file, uint32_t events, landed lands, bool all) {
    fstch_store left = FSTCH_CLOSED;
    memory copy = copy_of(file);
    WANT(events, write_some(store, copy, events, lands));
    WANT(FSTCH_DONE, open_memory(&left, copy));
    WANT(true, has(&left, "key", "before") || has(&left, "key", "now"));
    WANT(true, has(&left, "old", "value") || has(&left, "old", NULL));
    WANT(true, has(&left, "new", NULL) || has(&left, "new", "value"));
    if (all) {
        WANT(true, has(&left, "key", "now") && has(&left, "old", NULL) && has(&left, "new", "value"));
    }
    WANT(FSTCH_DONE, fstch_core_close(&left));
    free(copy.bytes);
}

/* Whenever the power is cut in a sync, and whichever writes behind the last barrier have landed: none, all, one, or all but one. */
static void cuts_leave_a_store(void) {
    fstch_store store = FSTCH_CLOSED;
    memory file = new_memory(4, 4, 0);
    WANT(FSTCH_DONE, open_memory(&store, file));
    WANT(FSTCH_DONE, put(&store, "key", "before"));
    WANT(FSTCH_DONE, put(&store, "old", "value"));
    WANT(FSTCH_DONE, sync_to(&store, file));
    WANT(FSTCH_DONE, put(&store, "key", "now"));
    WANT(FSTCH_DONE, delete_key(&store, "old"));
    WANT(FSTCH_DONE, put(&store, "new", "value"));
    WANT(FSTCH_DONE, fstch_core_sync(&store));
    uint32_t all = 0, events = 0;
    WANT(0, count_loose(&store, UINT32_MAX, &all));
    MUST(all > 3);
    for (uint32_t count = 0; count <= all; count++) {
        uint32_t loose = count_loose(&store, count, &events);
        leaves_a_store(&store, file, count, 0, count == all);
        leaves_a_store(&store, file, count, ALL, count == all);
        for (uint32_t one = 0; one < loose; one++) {
            leaves_a_store(&store, file, count, (landed)1 << one, false);
            leaves_a_store(&store, file, count, ~((landed)1 << one), false);
        }
    }
    WANT(FSTCH_DONE, fstch_core_close(&store));
    free(file.bytes);
}

static uint32_t new_group(fstch_store *store) {
    uint32_t group = 777;
    WANT(FSTCH_DONE, fstch_group(store, &group));
    return group;
}

static void make_and_close_groups(fstch_store *store, uint32_t count) {
    for (uint32_t number = 0; number < count; number++) {
        WANT(FSTCH_DONE, fstch_group_close(store, new_group(store)));
    }
}

static void sync_and_renew(fstch_store *store, memory to) {
    WANT(FSTCH_DONE, sync_to(store, to));
    WANT(FSTCH_DONE, fstch_core_renew(store));
}

/* More than 512 groups, and not as many; where no change is unsynced. */
static void groups_begin_anew(void) {
    fstch_store store = FSTCH_CLOSED;
    memory file = new_memory(1, 4, 0);
    uint32_t changes = 777;
    WANT(FSTCH_DONE, open_memory(&store, file));
    make_and_close_groups(&store, 512);
    sync_and_renew(&store, file);
    WANT(512, new_group(&store)); /* (it is never engaged) */
    WANT(FSTCH_DONE, put(&store, "key", "value"));
    WANT(FSTCH_DONE, fstch_core_renew(&store));
    WANT(513, new_group(&store));
    sync_and_renew(&store, file);
    WANT(FSTCH_NO_SUCH_GROUP, fstch_group_pending(&store, 512, &changes));
    make_and_close_groups(&store, 513);
    sync_and_renew(&store, file);
    WANT(0, new_group(&store));
    WANT(true, has(&store, "key", "value"));
    WANT(FSTCH_DONE, put(&store, "key", "other"));
    WANT(FSTCH_DONE, sync_to(&store, file));
    WANT(FSTCH_DONE, fstch_core_close(&store));
    WANT(FSTCH_DONE, open_memory(&store, file));
    WANT(true, has(&store, "key", "other"));
    WANT(FSTCH_DONE, fstch_core_close(&store));
    free(file.bytes);
}

/* A group that was engaged and isn't closed keeps the store as it is, and goes on. */
static void an_open_group_goes_on(void) {
    fstch_store store = FSTCH_CLOSED;
    memory file = new_memory(1, 4, 0);
    uint32_t changes = 777, open = 777;
    WANT(FSTCH_DONE, open_memory(&store, file));
    open = new_group(&store);
    WANT(FSTCH_DONE, fstch_group_engage(&store, open, 0));
    WANT(FSTCH_DONE, put_by(&store, 0, "before", "value"));
    make_and_close_groups(&store, 513);
    sync_and_renew(&store, file);
    WANT(514, new_group(&store));
    WANT(FSTCH_DONE, put_by(&store, 0, "behind", "value"));
    WANT(FSTCH_DONE, fstch_group_pending(&store, open, &changes));
    WANT(true, changes > 0);
    WANT(FSTCH_DONE, fstch_group_disengage(&store, open, 0));
    sync_and_renew(&store, file);
    WANT(FSTCH_DONE, fstch_group_pending(&store, open, &changes));
    WANT(0, changes);
    WANT(515, new_group(&store));
    WANT(FSTCH_DONE, fstch_group_close(&store, open));
    sync_and_renew(&store, file);
    WANT(0, new_group(&store));
    WANT(true, has(&store, "before", "value") && has(&store, "behind", "value"));
    WANT(FSTCH_DONE, fstch_core_close(&store));
    free(file.bytes);
}

/* Each round makes as many changes as memory has, 65,536 or a few less: 16 rounds aren't more than 1,048,576, and 17 are. The puts of four
 * rounds have room in the file, and the others win room back. */
static void changes_begin_anew(void) {
    enum { ROUNDS = 17 };
    fstch_store store = FSTCH_CLOSED;
    memory file = new_memory(1, 32, 0);
    WANT(FSTCH_DONE, open_memory(&store, file));
    for (uint32_t round = 0; round < ROUNDS; round++) {
        int32_t answer;
        WANT(round, new_group(&store));
        do {
            answer = put(&store, "key", "value");
        } while (answer == FSTCH_DONE);
        WANT(FSTCH_TOO_MANY_LIVE, answer);
        sync_and_renew(&store, file);
    }
    WANT(0, new_group(&store));
    WANT(true, has(&store, "key", "value"));
    WANT(FSTCH_DONE, put(&store, "key", "last"));
    WANT(FSTCH_DONE, sync_to(&store, file));
    WANT(FSTCH_DONE, fstch_core_close(&store));
    WANT(FSTCH_DONE, open_memory(&store, file));
    WANT(true, has(&store, "key", "last"));
    WANT(FSTCH_DONE, fstch_core_close(&store));
    free(file.bytes);
}

int main(void) {
    closed_stores_are_refused();
    a_first_block_is_made();
    bytes_are_opened();
    room_is_won_back_unless_by_hand();
    values_last();
    a_tape_is_read_by_numbers();
    cuts_leave_a_store();
    groups_begin_anew();
    an_open_group_goes_on();
    changes_begin_anew();
    return ended();
}
