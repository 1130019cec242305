/* A store and a cache that are moved, and used by one thread after another; and how much of its stack a call takes. */
#define _GNU_SOURCE
#include "caching.h"

#include <pthread.h>
#include <unistd.h>

enum { THREADS = 5, ROUNDS = 200, STACK = 256 * 1024, MARK = 0xa5, MOST_OF_STACK = 16 * 1024 };

static pthread_mutex_t lock = PTHREAD_MUTEX_INITIALIZER;
/* The store that all threads share, and where it was before. */
static fstch_store shared[2];
static int place;

/* Moves the store: what was there before isn't used any more. */
static void move_store(void) {
    shared[1 - place] = shared[place];
    memset(&shared[place], MARK, sizeof shared[place]);
    place = 1 - place;
}

static void *use(void *number) {
    char key[16], value[16];
    for (int round = 0; round < ROUNDS; round++) {
        snprintf(key, sizeof key, "key %d", *(int *)number);
        snprintf(value, sizeof value, "value %d", round);
        MUST(pthread_mutex_lock(&lock) == 0);
        WANT(FSTCH_DONE, put(&shared[place], key, value));
        if (round % 10 == 0) {
            WANT(FSTCH_DONE, fstch_sync(&shared[place]));
        }
        move_store();
        WANT(true, has(&shared[place], key, value));
        MUST(pthread_mutex_unlock(&lock) == 0);
    }
    return NULL;
}

static void threads_share_a_store_that_is_moved(void) {
    pthread_t threads[THREADS];
    int numbers[THREADS];
    shared[place] = new_store(1, 4);
    for (int number = 0; number < THREADS; number++) {
        numbers[number] = number;
        MUST(pthread_create(&threads[number], NULL, use, &numbers[number]) == 0);
    }
    for (int number = 0; number < THREADS; number++) {
        MUST(pthread_join(threads[number], NULL) == 0);
    }
    char value[16];
    snprintf(value, sizeof value, "value %d", ROUNDS - 1);
    for (int number = 0; number < THREADS; number++) {
        char key[16];
        snprintf(key, sizeof key, "key %d", number);
        WANT(true, has(&shared[place], key, value));
    }
    WANT(FSTCH_DONE, fstch_close(&shared[place]));
}

/* The cache that all threads share, and where it was before. Each has a block, in which it counts. */
static fstch_cache shared_cache[2];

static void *use_cache(void *number) {
    for (uint32_t round = 0; round < ROUNDS; round++) {
        uint32_t block = *(uint32_t *)number, seen = 0, patch = LEFT;
        MUST(pthread_mutex_lock(&lock) == 0);
        fstch_cache *at = &shared_cache[place];
        WANT(FSTCH_DONE, fstch_cache_read(at, block, 0, sizeof seen, &seen));
        WANT(round, seen++);
        WANT(FSTCH_DONE, fstch_cache_patch(at, FSTCH_NO_WRITER, block, 0, &seen, sizeof seen, &patch, 0, 0, &patch));
        if (round % 10 == 0) {
            write_all(at);
        }
        shared_cache[1 - place] = *at;
        memset(at, MARK, sizeof *at);
        place = 1 - place;
        MUST(pthread_mutex_unlock(&lock) == 0);
    }
    return NULL;
}

static void threads_share_a_cache_that_is_moved(void) {
    pthread_t threads[THREADS];
    uint32_t numbers[THREADS], blocks = 0, made = 0, live = 0, below = 0;
    shared_cache[place] = new_cache(THREADS, THREADS);
    for (uint32_t it = 0; it < THREADS; it++) {
        numbers[it] = it;
        MUST(pthread_create(&threads[it], NULL, use_cache, &numbers[it]) == 0);
    }
    for (int it = 0; it < THREADS; it++) {
        MUST(pthread_join(threads[it], NULL) == 0);
    }
    WANT(FSTCH_DONE, fstch_cache_counts(&shared_cache[place], &blocks, &made, &live, &below));
    WANT(THREADS * ROUNDS, made);
    WANT(FSTCH_DONE, fstch_cache_close(&shared_cache[place]));
}

/* A call on the store or the cache at hand, of which the stack is measured. */
typedef struct {
    const char *name;
    void (*call)(void);
} measured;

static fstch_store store;
static uint8_t bytes[FSTCH_MAX_VALUE];
static uint32_t number, other;
static size_t length, other_length;

static void call_make(void) {
    remove(FILE_NAME);
    WANT(FSTCH_DONE, fstch_make(FILE_NAME, 16, 63, 64));
}

static void call_open(void) {
    WANT(FSTCH_DONE, fstch_open(&store, FILE_NAME, NULL));
}

static void call_open_to_read(void) {
    WANT(FSTCH_DONE, open_to_read(&store, FILE_NAME));
}

static void call_put(void) {
    WANT(FSTCH_DONE, fstch_put(&store, 0, "key", 3, bytes, sizeof bytes));
}

/* Each extent has a long value, and most of them a short one that is moved where the extent is won back. */
static void call_puts_that_win_room(void) {
    for (int count = 0; count < 200; count++) {
        uint8_t key = (uint8_t)(count % 100);
        WANT(FSTCH_DONE, fstch_put(&store, 0, &key, 1, bytes, 100));
        WANT(FSTCH_DONE, fstch_put(&store, 0, "key", 3, bytes, sizeof bytes));
    }
}

static void call_get(void) {
    WANT(FSTCH_DONE, fstch_get(&store, "key", 3, bytes, sizeof bytes, &length));
}

static void call_sync(void) {
    WANT(FSTCH_DONE, fstch_sync(&store));
}

static void call_delete(void) {
    WANT(FSTCH_DONE, fstch_delete(&store, 0, "key", 3));
}

static void call_reclaim(void) {
    WANT(FSTCH_DONE, fstch_reclaim(&store, 0));
}

static void call_check(void) {
    WANT(FSTCH_DONE, fstch_check(&store, &number, &other));
}

static void call_entry(void) {
    WANT(FSTCH_DONE, fstch_entry(&store, 0, bytes, sizeof bytes, &length, &other_length));
}

static void call_in_order(void) {
    WANT(FSTCH_DONE, fstch_next(&store, bytes, 0, bytes + 1, FSTCH_MAX_KEY, &length, &other_length));
    WANT(FSTCH_DONE, fstch_previous(&store, "l", 1, bytes, sizeof bytes, &length, &other_length));
    WANT(FSTCH_DONE, fstch_last(&store, bytes, sizeof bytes, &length, &other_length));
}

static void call_extent(void) {
    WANT(FSTCH_DONE, fstch_extent(&store, 0, &number, &other));
}

static void call_unsynced(void) {
    WANT(FSTCH_DONE, fstch_unsynced(&store, &number));
}

static void call_stats(void) {
    fstch_statistics statistics;
    WANT(FSTCH_DONE, fstch_stats(&store, &statistics));
}

static void call_groups(void) {
    uint32_t group = 0, later = 0;
    WANT(FSTCH_DONE, fstch_group(&store, &group));
    WANT(FSTCH_DONE, fstch_group_engage(&store, group, 1));
    WANT(FSTCH_DONE, fstch_put(&store, 1, "grouped", 7, bytes, 100));
    WANT(FSTCH_DONE, fstch_group_disengage(&store, group, 1));
    WANT(FSTCH_DONE, fstch_group(&store, &later));
    WANT(FSTCH_DONE, fstch_group_depend(&store, later, group));
    WANT(FSTCH_DONE, fstch_group_pending(&store, group, &number));
    WANT(FSTCH_DONE, fstch_group_close(&store, group));
}

/* The store begins anew behind it. */
static void call_sync_of_groups(void) {
    uint32_t group = 0;
    for (int count = 0; count < 513; count++) {
        WANT(FSTCH_DONE, fstch_group(&store, &group));
        WANT(FSTCH_DONE, fstch_group_close(&store, group));
    }
    WANT(FSTCH_DONE, fstch_sync(&store));
    WANT(FSTCH_DONE, fstch_group(&store, &group));
    WANT(0, group);
}

static void call_close(void) {
    WANT(FSTCH_DONE, fstch_close(&store));
}

static fstch_cache cache;
static uint8_t image[FSTCH_BLOCK];
enum { PATCHES = 300 };
static uint32_t patches[PATCHES], flying;

static void call_cache_open(void) {
    WANT(FSTCH_DONE, fstch_cache_open(&cache, FSTCH_MAX_BLOCKS));
}

static void call_cache_admit(void) {
    WANT(FSTCH_DONE, fstch_cache_admit(&cache, 0, image));
    WANT(FSTCH_DONE, fstch_cache_admit(&cache, FSTCH_MAX_BLOCKS - 1, image));
}

static void call_cache_patch(void) {
    for (uint32_t it = 0; it < PATCHES; it++) {
        uint32_t block = it % 2 ? FSTCH_MAX_BLOCKS - 1 : 0;
        WANT(FSTCH_DONE, fstch_cache_patch(&cache, 0, block, it / 2, bytes, 1 + it % 9, patches, it, 0, &patches[it]));
    }
}

static void call_cache_merge(void) {
    WANT(FSTCH_WOULD_CYCLE, fstch_cache_merge(&cache, 0, 2, &number, &other));
}

static void call_cache_look(void) {
    WANT(FSTCH_DONE, fstch_cache_read(&cache, 0, 0, sizeof image, image));
    WANT(FSTCH_DONE, fstch_cache_without(&cache, 0, &patches[PATCHES - 2], 1, 0, sizeof image, image, &other));
    WANT(FSTCH_DONE, fstch_cache_mark(&cache, PATCHES - 1, &number));
    WANT(FSTCH_DONE, fstch_cache_counts(&cache, &number, &number, &number, &other));
}

static void call_cache_send(void) {
    WANT(FSTCH_DONE, fstch_cache_next(&cache, &number));
    WANT(FSTCH_DONE, fstch_cache_send(&cache, number, &flying, image, sizeof image));
    WANT(FSTCH_DONE, fstch_cache_image(&cache, number, flying, image, sizeof image));
    WANT(FSTCH_DONE, fstch_cache_flight(&cache, number, flying, patches, PATCHES, &length));
}

static void call_cache_complete(void) {
    WANT(FSTCH_DONE, fstch_cache_complete(&cache, number, flying));
    write_all(&cache);
}

static void call_cache_groups(void) {
    uint32_t group = 0, later = 0;
    WANT(FSTCH_DONE, fstch_cache_group(&cache, &group));
    WANT(FSTCH_DONE, fstch_cache_group_engage(&cache, group, 1));
    WANT(FSTCH_DONE, fstch_cache_patch(&cache, 1, 0, 0, bytes, 1, patches, 0, 0, &number));
    WANT(FSTCH_DONE, fstch_cache_group_disengage(&cache, group, 1));
    WANT(FSTCH_DONE, fstch_cache_group(&cache, &later));
    WANT(FSTCH_DONE, fstch_cache_group_depend(&cache, later, group));
    WANT(FSTCH_DONE, fstch_cache_group_pending(&cache, group, &number));
    WANT(FSTCH_DONE, fstch_cache_group_close(&cache, group));
}

static void call_cache_renew(void) {
    write_all(&cache);
    WANT(FSTCH_DONE, fstch_cache_renew(&cache));
}

static void call_cache_evict(void) {
    WANT(FSTCH_DONE, fstch_cache_evict(&cache, 0));
}

static void call_cache_close(void) {
    WANT(FSTCH_DONE, fstch_cache_close(&cache));
}

static const measured CALLS[] = {
    {"make", call_make},       {"open", call_open},     {"put", call_put},       {"put again", call_put},
    {"get", call_get},         {"entry", call_entry},   {"check", call_check},   {"extent", call_extent},
    {"in order", call_in_order}, {"unsynced", call_unsynced}, {"stats", call_stats}, {"groups", call_groups},
    {"sync", call_sync},       {"reclaim", call_reclaim}, {"delete", call_delete}, {"sync again", call_sync},
    {"sync of groups", call_sync_of_groups}, {"puts that win room", call_puts_that_win_room}, {"close", call_close}, {"open again", call_open},
    {"close again", call_close}, {"open to read", call_open_to_read}, {"close what was read", call_close},
    {"cache open", call_cache_open}, {"cache admit", call_cache_admit}, {"cache patch", call_cache_patch}, {"cache merge", call_cache_merge},
    {"cache look", call_cache_look}, {"cache send", call_cache_send}, {"cache complete", call_cache_complete},
    {"cache groups", call_cache_groups}, {"cache renew", call_cache_renew}, {"cache evict", call_cache_evict}, {"cache close", call_cache_close},
};

/* Where the stack stands as a call begins. */
static uint8_t *begin;

static void *call_measured(void *it) {
    begin = __builtin_frame_address(0);
    ((const measured *)it)->call();
    return NULL;
}

/* How many bytes of a marked stack a call has written to. */
static long stack_of(const measured *it) {
    static uint8_t stack[STACK] __attribute__((aligned(4096)));
    pthread_attr_t how;
    pthread_t thread;
    memset(stack, MARK, sizeof stack);
    MUST(pthread_attr_init(&how) == 0 && pthread_attr_setstack(&how, stack, sizeof stack) == 0);
    MUST(pthread_create(&thread, &how, call_measured, (void *)it) == 0 && pthread_join(thread, NULL) == 0);
    pthread_attr_destroy(&how);
    const uint8_t *lowest = stack;
    while (*lowest == MARK) {
        lowest++;
    }
    return (long)(begin - lowest);
}

static void calls_take_little_of_the_stack(void) {
    long most = 0;
    for (size_t it = 0; it < sizeof CALLS / sizeof CALLS[0]; it++) {
        long bytes_taken = stack_of(&CALLS[it]);
        printf("%s: %ld bytes of the stack\n", CALLS[it].name, bytes_taken);
        WANT(true, bytes_taken <= MOST_OF_STACK);
        most = bytes_taken > most ? bytes_taken : most;
    }
    printf("no call takes more than %ld bytes of the stack\n", most);
}

int main(void) {
    threads_share_a_store_that_is_moved();
    threads_share_a_cache_that_is_moved();
    calls_take_little_of_the_stack();
    return ended();
}
