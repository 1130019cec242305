/* When the library writes and syncs, and what it answers and has then where writes, syncs and allocations fail in turn. */
#define _GNU_SOURCE
#include "system.h"
#include "wanting.h"

#include <fcntl.h>
#include <sys/stat.h>

/* How often the library tries a write. */
enum { TRIES = 8 };

static void wants_reopened(fstch_store *store, const char *key, const char *value) {
    WANT(FSTCH_NO_SYNC, fstch_sync(store));
    WANT(FSTCH_NO_SYNC, fstch_sync(store));
    WANT(FSTCH_DONE, fstch_close(store));
    WANT(FSTCH_DONE, open_path(store, FILE_NAME));
    WANT(true, has(store, key, value));
    WANT(FSTCH_DONE, put(store, key, "again"));
    WANT(FSTCH_DONE, fstch_sync(store));
    WANT(FSTCH_DONE, fstch_close(store));
}

/* That so many syncs were done, and wrote so many waves. */
static void wants_syncs(const fstch_store *store, uint64_t syncs, uint64_t waves) {
    fstch_statistics seen;
    WANT(FSTCH_DONE, fstch_stats(store, &seen));
    WANT(syncs, seen.syncs);
    WANT(waves, seen.waves);
}

/* The file is synced behind the value, behind the pointer of its extent, and behind the slot that names it: each rests on the one before. */
static void a_sync_has_barriers(void) {
    fstch_store store = new_store(1, 4);
    WANT(FSTCH_DONE, put(&store, "key", "value"));
    writes_made = syncs_made = 0;
    WANT(FSTCH_DONE, fstch_sync(&store));
    WANT(3, writes_made);
    WANT(3, syncs_made);
    wants_syncs(&store, 1, 3);
    writes_made = syncs_made = 0;
    WANT(FSTCH_DONE, fstch_sync(&store)); /* nothing is left to be written */
    WANT(0, writes_made);
    WANT(0, syncs_made);
    wants_syncs(&store, 2, 3);
    WANT(FSTCH_DONE, fstch_close(&store));
}

static void barriers_are_passed_over(void) {
    fstch_store store = new_store(1, 4);
    uint32_t slot = 777;
    WANT(FSTCH_DONE, fstch_close(&store));
    WANT(FSTCH_DONE, fstch_open_with(&store, FILE_NAME, FSTCH_NO_BARRIERS, &slot));
    WANT(777, slot);
    WANT(FSTCH_DONE, put(&store, "key", "value"));
    syncs_made = 0;
    WANT(FSTCH_DONE, fstch_sync(&store));
    WANT(1, syncs_made);
    WANT(FSTCH_DONE, fstch_sync(&store));
    WANT(1, syncs_made);
    wants_syncs(&store, 2, 3);
    WANT(FSTCH_DONE, put(&store, "key", "other"));
    syncs_till_refused = 0;
    WANT(FSTCH_NO_SYNC, fstch_sync(&store));
    syncs_till_refused = -1;
    wants_reopened(&store, "key", "other"); /* it was written */
    WANT(FSTCH_DONE, fstch_open_with(&store, FILE_NAME, 0, &slot));
    WANT(FSTCH_DONE, put(&store, "key", "last"));
    syncs_made = 0;
    WANT(FSTCH_DONE, fstch_sync(&store));
    WANT(3, syncs_made);
    WANT(FSTCH_DONE, fstch_close(&store));
}

static void nothing_is_written_but_by_a_sync(void) {
    static uint8_t value[32768];
    fstch_store store = new_store(1, 4);
    uint32_t group = 777;
    writes_made = syncs_made = 0;
    WANT(FSTCH_DONE, fstch_group(&store, &group));
    WANT(FSTCH_DONE, fstch_group_engage(&store, group, 0));
    WANT(FSTCH_DONE, put_by(&store, 0, "key", "value"));
    for (int number = 0; number < 8; number++) { /* (the last five win room back) */
        WANT(FSTCH_DONE, fstch_put(&store, FSTCH_NO_WRITER, "long", 4, value, sizeof value));
    }
    WANT(FSTCH_DONE, fstch_reclaim(&store, 0));
    WANT(FSTCH_DONE, delete_key(&store, "long"));
    WANT(true, has(&store, "key", "value"));
    WANT(0, writes_made);
    WANT(0, syncs_made);
    WANT(FSTCH_DONE, fstch_sync(&store));
    WANT(true, writes_made > 0);
    WANT(true, syncs_made > 0);
    WANT(FSTCH_DONE, put(&store, "key", "lost"));
    writes_made = syncs_made = 0;
    WANT(FSTCH_DONE, fstch_close(&store));
    WANT(0, writes_made);
    WANT(0, syncs_made);
}

static void a_write_is_refused(void) {
    fstch_store store = new_store(1, 4);
    WANT(FSTCH_DONE, put(&store, "key", "first"));
    WANT(FSTCH_DONE, fstch_sync(&store));
    WANT(FSTCH_DONE, put(&store, "key", "second"));
    writes_till_refused = 0;
    WANT(FSTCH_DEVICE_GAVE_UP, fstch_sync(&store));
    WANT(EIO, errno);
    writes_till_refused = -1;
    wants_syncs(&store, 1, 3);
    WANT(true, has(&store, "key", "second"));
    wants_reopened(&store, "key", "first");
}

static void a_write_is_tried_again(void) {
    fstch_store store = new_store(1, 4);
    WANT(FSTCH_DONE, put(&store, "key", "first"));
    writes_till_refused = 1;
    writes_to_refuse = TRIES - 1;
    WANT(FSTCH_DONE, fstch_sync(&store));
    WANT(0, writes_to_refuse);
    WANT(FSTCH_DONE, put(&store, "key", "second"));
    writes_till_refused = 0;
    writes_to_refuse = TRIES;
    WANT(FSTCH_DEVICE_GAVE_UP, fstch_sync(&store));
    WANT(0, writes_to_refuse);
    writes_till_refused = writes_to_refuse = -1;
    wants_reopened(&store, "key", "first");
}

/* Where the first of these calls is refused the file isn't opened, and its lock is let go. */
static void wants_no_open_without(long *calls_till_refused) {
    fstch_store store = new_store(1, 4);
    WANT(FSTCH_DONE, fstch_close(&store));
    *calls_till_refused = 0;
    WANT(FSTCH_DISK, open_path(&store, FILE_NAME));
    WANT(EIO, errno);
    *calls_till_refused = -1;
    WANT(false, fstch_is_open(&store));
    WANT(FSTCH_DONE, open_path(&store, FILE_NAME));
    WANT(FSTCH_DONE, fstch_close(&store));
}

static void a_read_is_refused(void) {
    wants_no_open_without(&reads_till_refused);
}

/* A store goes on with a file that has no name any more. */
static void the_file_is_removed(void) {
    fstch_store store = new_store(1, 4);
    WANT(0, remove(FILE_NAME));
    WANT(FSTCH_DONE, put(&store, "key", "first"));
    WANT(FSTCH_DONE, fstch_sync(&store));
    WANT(FSTCH_DONE, fstch_close(&store));
    WANT(FSTCH_DISK, open_path(&store, FILE_NAME));
    WANT(ENOENT, errno);
}

static void a_file_that_is_too_long_is_not_read(void) {
    fstch_store store = new_store(1, 4);
    WANT(FSTCH_DONE, fstch_close(&store));
    MUST(truncate(FILE_NAME, 4097 * 4096) == 0);
    reads_till_refused = 0;
    WANT(FSTCH_FILE_SIZE, open_path(&store, FILE_NAME));
    MUST(truncate(FILE_NAME, 0) == 0);
    WANT(FSTCH_FILE_SIZE, open_path(&store, FILE_NAME));
    reads_till_refused = -1;
}

/* How many blocks a sync has written where this one of its syncs of the file is refused. */
static long written_before(long sync) {
    fstch_store store = new_store(1, 4);
    WANT(FSTCH_DONE, put(&store, "key", "value"));
    writes_made = 0;
    syncs_till_refused = sync;
    WANT(FSTCH_NO_SYNC, fstch_sync(&store));
    syncs_till_refused = -1;
    WANT(true, has(&store, "key", "value"));
    long written = writes_made;
    wants_reopened(&store, "key", sync < 2 ? NULL : "value"); /* the slot that names the value was written last */
    return written;
}

/* Nothing is written behind a sync that failed. */
static void the_system_refuses_to_sync(void) {
    for (long sync = 0; sync < 3; sync++) {
        WANT(sync + 1, written_before(sync));
    }
}

static void a_file_is_not_settled(void) {
    wants_no_open_without(&syncs_till_refused);
}

/* What a make of the file has left. */
static bool leaves_nothing(void) {
    return access(FILE_NAME, F_OK) != 0 && access(".fstch-00", F_OK) != 0;
}

static void a_file_is_not_finished(void) {
    remove(FILE_NAME);
    writes_till_refused = 0;
    WANT(FSTCH_DISK, make(FILE_NAME, 1, 4));
    WANT(EIO, errno); /* and not what the removal of the file left there */
    writes_till_refused = -1;
    MUST(leaves_nothing());
    for (long sync = 0; sync < 2; sync++) { /* of the file, and of its directory */
        syncs_till_refused = sync;
        WANT(FSTCH_DISK, make(FILE_NAME, 1, 4));
        WANT(EIO, errno);
        syncs_till_refused = -1;
        MUST(leaves_nothing());
    }
    answer_to_room = ENOSPC;
    WANT(FSTCH_DISK, make(FILE_NAME, 1, 4));
    WANT(ENOSPC, errno);
    answer_to_room = 0;
    MUST(leaves_nothing());
}

/* Where it is to be. */
static void a_file_system_has_no_links(void) {
    fstch_store store = FSTCH_CLOSED;
    remove(FILE_NAME);
    answer_to_link = EPERM;
    WANT(FSTCH_DONE, make(FILE_NAME, 1, 4));
    WANT(FSTCH_DISK, make(FILE_NAME, 1, 4));
    WANT(EEXIST, errno);
    answer_to_link = 0;
    MUST(access(".fstch-00", F_OK) != 0);
    WANT(FSTCH_DONE, open_path(&store, FILE_NAME));
    WANT(FSTCH_DONE, fstch_close(&store));
}

/* The other name of a file that isn't whole yet is that of another one, as a make that was killed leaves it. */
static void another_name_is_taken(void) {
    fstch_store store = FSTCH_CLOSED;
    int file = open(".fstch-00", O_CREAT | O_WRONLY, 0666);
    MUST(file >= 0 && close(file) == 0);
    remove(FILE_NAME);
    WANT(FSTCH_DONE, make(FILE_NAME, 1, 4));
    WANT(FSTCH_DONE, open_path(&store, FILE_NAME));
    WANT(FSTCH_DONE, fstch_close(&store));
    MUST(access(".fstch-01", F_OK) != 0 && remove(".fstch-00") == 0);
}

/* How long a file is and how much room it has, in blocks of 4,096 bytes. */
static void wants_room(const char *name, long blocks) {
    struct stat seen;
    MUST(stat(name, &seen) == 0);
    WANT(blocks * 4096, seen.st_size);
    WANT(true, (long)seen.st_blocks * 512 >= blocks * 4096);
}

static void a_file_has_its_room(void) {
    const long blocks = 2 + 1 + 4 * 16;
    remove(FILE_NAME);
    WANT(FSTCH_DONE, make(FILE_NAME, 1, 4));
    wants_room(FILE_NAME, blocks);
    remove(FILE_NAME);
    answer_to_room = EOPNOTSUPP;
    writes_made = 0;
    WANT(FSTCH_DONE, make(FILE_NAME, 1, 4));
    answer_to_room = 0;
    WANT(blocks + 1, writes_made); /* zeros, and the first block */
    wants_room(FILE_NAME, blocks);
}

/* In each directory that a path may name. */
static void directories_are_synced(void) {
    char here[4096], path[4200];
    MUST(getcwd(here, sizeof here) != NULL);
    snprintf(path, sizeof path, "%s/%s", here, FILE_NAME);
    const char *const paths[] = {FILE_NAME, "./" FILE_NAME, path};
    for (int number = 0; number < 3; number++) {
        remove(FILE_NAME);
        syncs_made = 0;
        WANT(FSTCH_DONE, make(paths[number], 1, 4));
        WANT(2, syncs_made);
    }
}

static void calls_are_taken_up_again(void) {
    static uint8_t value[10000], into[10000];
    size_t length = 0;
    memset(value, 'v', sizeof value);
    is_interrupting = true;
    most_moved = 1000;
    fstch_store store = new_store(1, 4);
    WANT(FSTCH_DONE, put(&store, "key", "value"));
    WANT(FSTCH_DONE, fstch_put(&store, FSTCH_NO_WRITER, "long", 4, value, sizeof value));
    WANT(FSTCH_DONE, fstch_sync(&store));
    WANT(FSTCH_DONE, fstch_close(&store));
    WANT(FSTCH_DONE, open_path(&store, FILE_NAME));
    WANT(true, has(&store, "key", "value"));
    is_interrupting = false;
    most_moved = (size_t)-1;
    WANT(FSTCH_IN_USE, open_path(&(fstch_store)FSTCH_CLOSED, FILE_NAME));
    WANT(FSTCH_DONE, fstch_close(&store));
    WANT(FSTCH_DONE, open_path(&store, FILE_NAME));
    WANT(true, has(&store, "key", "value"));
    WANT(FSTCH_DONE, fstch_get(&store, "long", 4, into, sizeof into, &length));
    WANT(true, length == sizeof value && memcmp(into, value, sizeof value) == 0);
    WANT(FSTCH_DONE, fstch_close(&store));
}

/* A program that closed its standard input doesn't read the store there. */
static void standard_streams_are_left_alone(void) {
    MUST(close(0) == 0);
    fstch_store store = new_store(1, 4);
    WANT(-1, fcntl(0, F_GETFD));
    WANT(FSTCH_DONE, put(&store, "key", "value"));
    WANT(FSTCH_DONE, fstch_sync(&store));
    MUST(open("/dev/null", O_RDONLY) == 0);
    WANT(FSTCH_DONE, fstch_close(&store));
}

/* Whether an answer is that of a refused allocation, behind which all goes on. */
static bool is_refused(int32_t answer) {
    allocations_till_refused = -1;
    WANT(true, answer == FSTCH_DONE || answer == FSTCH_OUT_OF_MEMORY);
    return answer == FSTCH_OUT_OF_MEMORY;
}

static bool opens_with_a_failure(long allocation) {
    fstch_store store = FSTCH_CLOSED;
    allocations_till_refused = allocation;
    bool refused = is_refused(open_path(&store, FILE_NAME));
    WANT(!refused, fstch_is_open(&store));
    if (refused) {
        WANT(FSTCH_DONE, open_path(&store, FILE_NAME)); /* the lock is let go */
    }
    WANT(true, has(&store, "key", "value"));
    WANT(FSTCH_DONE, fstch_close(&store));
    return refused;
}

static bool puts_with_a_failure(long allocation) {
    fstch_store store = FSTCH_CLOSED;
    WANT(FSTCH_DONE, open_path(&store, FILE_NAME));
    allocations_till_refused = allocation;
    bool refused = is_refused(put(&store, "key", "other"));
    WANT(true, has(&store, "key", refused ? "value" : "other"));
    WANT(FSTCH_DONE, put(&store, "key", "last"));
    WANT(true, has(&store, "key", "last"));
    WANT(FSTCH_DONE, fstch_close(&store));
    return refused;
}

static int32_t put_long(fstch_store *store, const char *key) {
    static const uint8_t value[32768] = {0};
    return fstch_put(store, FSTCH_NO_WRITER, key, strlen(key), value, sizeof value);
}

static bool has_long(fstch_store *store, const char *key) {
    static uint8_t into[32768];
    size_t length = 0;
    return fstch_get(store, key, strlen(key), into, sizeof into, &length) == FSTCH_DONE && length == sizeof into;
}

/* The extent of the key is won back for the last put, and the key is moved. */
static bool puts_in_won_room_with_a_failure(long allocation) {
    fstch_store store = FSTCH_CLOSED;
    WANT(FSTCH_DONE, open_path(&store, FILE_NAME));
    WANT(FSTCH_DONE, put_long(&store, "a"));
    WANT(FSTCH_DONE, put_long(&store, "b"));
    WANT(FSTCH_DONE, put_long(&store, "a"));
    allocations_till_refused = allocation;
    bool refused = is_refused(put_long(&store, "c"));
    WANT(true, has(&store, "key", "value"));
    WANT(true, has_long(&store, "a") && has_long(&store, "b"));
    WANT(!refused, has_long(&store, "c"));
    if (refused) {
        WANT(FSTCH_DONE, put_long(&store, "c"));
        WANT(true, has(&store, "key", "value") && has_long(&store, "c"));
    }
    WANT(FSTCH_DONE, fstch_close(&store));
    return refused;
}

static bool deletes_with_a_failure(long allocation) {
    fstch_store store = FSTCH_CLOSED;
    WANT(FSTCH_DONE, open_path(&store, FILE_NAME));
    allocations_till_refused = allocation;
    bool refused = is_refused(delete_key(&store, "key"));
    WANT(true, has(&store, "key", refused ? "value" : NULL));
    WANT(FSTCH_DONE, fstch_close(&store));
    return refused;
}

static bool looks_with_a_failure(long allocation) {
    fstch_store store = FSTCH_CLOSED;
    uint32_t entries = 777, extents = 777;
    uint8_t into[8];
    size_t length = 777, other = 777;
    fstch_statistics statistics;
    WANT(FSTCH_DONE, open_path(&store, FILE_NAME));
    allocations_till_refused = allocation;
    bool refused = is_refused(fstch_get(&store, "key", 3, into, sizeof into, &length));
    WANT(refused ? 777 : 5, length);
    allocations_till_refused = allocation;
    refused = is_refused(fstch_check(&store, &entries, &extents)) || refused;
    allocations_till_refused = allocation;
    refused = is_refused(fstch_entry(&store, 0, into, sizeof into, &length, &other)) || refused;
    allocations_till_refused = allocation;
    WANT(FSTCH_DONE, fstch_next(&store, "k", 1, into, sizeof into, &length, &other));
    WANT(FSTCH_DONE, fstch_previous(&store, "l", 1, into, sizeof into, &length, &other));
    WANT(FSTCH_DONE, fstch_last(&store, into, sizeof into, &length, &other));
    WANT(FSTCH_DONE, fstch_stats(&store, &statistics));
    allocations_till_refused = -1;
    WANT(FSTCH_DONE, fstch_check(&store, &entries, &extents));
    WANT(1, entries);
    WANT(FSTCH_DONE, fstch_close(&store));
    return refused;
}

static bool syncs_with_a_failure(long allocation) {
    fstch_store store = FSTCH_CLOSED;
    WANT(FSTCH_DONE, open_path(&store, FILE_NAME));
    WANT(FSTCH_DONE, put(&store, "key", "value"));
    allocations_till_refused = allocation;
    bool refused = is_refused(fstch_sync(&store));
    if (refused) {
        WANT(FSTCH_NO_SYNC, fstch_sync(&store));
    }
    WANT(true, has(&store, "key", "value"));
    WANT(FSTCH_DONE, fstch_close(&store));
    return refused;
}

/* As memory that is all taken. */
static bool syncs_without_memory(long allocation) {
    is_without_memory = true;
    bool refused = syncs_with_a_failure(allocation);
    is_without_memory = false;
    return refused;
}

static bool makes_with_a_failure(long allocation) {
    remove("other.disk");
    allocations_till_refused = allocation;
    bool refused = is_refused(make("other.disk", 1, 4));
    WANT(refused, access("other.disk", F_OK) != 0);
    return refused;
}

static bool groups_with_a_failure(long allocation) {
    fstch_store store = FSTCH_CLOSED;
    uint32_t group = 777;
    WANT(FSTCH_DONE, open_path(&store, FILE_NAME));
    allocations_till_refused = allocation;
    bool refused = is_refused(fstch_group(&store, &group));
    WANT(refused ? 777 : 0, group);
    if (refused) {
        WANT(FSTCH_DONE, fstch_group(&store, &group));
        WANT(0, group);
    }
    allocations_till_refused = allocation;
    refused = is_refused(fstch_group_engage(&store, 0, 5)) || refused;
    WANT(FSTCH_DONE, fstch_close(&store));
    return refused;
}

/* Each allocation of a call is refused in turn, until a call has no more. */
static void allocations_are_refused(const char *name, bool (*fails)(long)) {
    long allocation = 0;
    while (allocation < 100000 && fails(allocation)) {
        /* (every one of the first, and then fewer and fewer: opening a file has one for each block) */
        allocation += 1 + allocation / 64;
    }
    WANT(true, allocation < 100000);
    printf("%s: up to allocation %ld\n", name, allocation);
}

int main(void) {
    nothing_is_written_but_by_a_sync();
    a_write_is_refused();
    a_write_is_tried_again();
    a_read_is_refused();
    the_file_is_removed();
    a_file_that_is_too_long_is_not_read();
    a_sync_has_barriers();
    barriers_are_passed_over();
    the_system_refuses_to_sync();
    a_file_is_not_settled();
    a_file_is_not_finished();
    a_file_system_has_no_links();
    another_name_is_taken();
    a_file_has_its_room();
    directories_are_synced();
    calls_are_taken_up_again();
    standard_streams_are_left_alone();
    fstch_store store = new_store(1, 4);
    WANT(FSTCH_DONE, put(&store, "key", "value"));
    WANT(FSTCH_DONE, fstch_sync(&store));
    WANT(FSTCH_DONE, fstch_close(&store));
    allocations_are_refused("make", makes_with_a_failure);
    allocations_are_refused("open", opens_with_a_failure);
    allocations_are_refused("put", puts_with_a_failure);
    allocations_are_refused("put that wins room back", puts_in_won_room_with_a_failure);
    allocations_are_refused("delete", deletes_with_a_failure);
    allocations_are_refused("looks", looks_with_a_failure);
    allocations_are_refused("groups", groups_with_a_failure);
    allocations_are_refused("sync", syncs_with_a_failure);
    allocations_are_refused("sync, without memory", syncs_without_memory);
    return ended();
}
