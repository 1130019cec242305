/* What a cache answers and has where allocations fail in turn: a call that is refused for want of memory has changed nothing, and is done
 * when it is made again. */
#define _GNU_SOURCE
#include "system.h"
#include "caching.h"

enum { BLOCKS = 4, MOST_TRIES = 1000 };

/* A call with all that it is given; it answers. */
typedef int32_t (*called)(fstch_cache *cache);

static uint8_t bytes[FSTCH_BLOCK], image[FSTCH_BLOCK];
static uint32_t set, other_set;

static int32_t call_admit(fstch_cache *cache) {
    return fstch_cache_admit(cache, BLOCKS - 1, bytes);
}

static int32_t call_patch(fstch_cache *cache) {
    static const uint32_t after[4] = {0, 1, 2, 3};
    return fstch_cache_patch(cache, 0, 0, 0, bytes, 2000, after, 4, 0, &set);
}

static int32_t call_merge(fstch_cache *cache) {
    return fstch_cache_merge(cache, 0, 1, &set, &other_set);
}

static int32_t call_send(fstch_cache *cache) {
    return fstch_cache_send(cache, 1, &set, image, sizeof image);
}

static int32_t call_group(fstch_cache *cache) {
    return fstch_cache_group(cache, &set);
}

static int32_t call_engage(fstch_cache *cache) {
    return fstch_cache_group_engage(cache, 1, 5);
}

static int32_t call_depend(fstch_cache *cache) {
    return fstch_cache_group_depend(cache, 2, 1);
}

static int32_t call_without(fstch_cache *cache) {
    static const uint32_t patch = 1;
    return fstch_cache_without(cache, 0, &patch, 1, 0, sizeof image, image, &other_set);
}

static const struct {
    const char *name;
    called call;
} CALLS[] = {
    {"admit", call_admit}, {"patch", call_patch}, {"merge", call_merge},   {"send", call_send},       {"group", call_group},
    {"engage", call_engage}, {"depend", call_depend}, {"without", call_without},
};

/* Four patches of two blocks, a write that is under way, and three groups, of which one goes after another. */
static fstch_cache cache_at_work(void) {
    fstch_cache cache = new_cache(BLOCKS, BLOCKS - 1);
    uint32_t group = LEFT;
    laid(&cache, 0, 0, "first", LEFT);
    laid(&cache, 0, 5, "second", LEFT);
    laid(&cache, 1, 0, "third", LEFT);
    laid(&cache, 2, 0, "fourth", LEFT);
    MUST(fstch_cache_send(&cache, 2, &group, image, sizeof image) == FSTCH_DONE);
    for (uint32_t it = 0; it < 3; it++) {
        MUST(fstch_cache_group(&cache, &group) == FSTCH_DONE);
    }
    MUST(fstch_cache_group_depend(&cache, 1, 0) == FSTCH_DONE);
    MUST(fstch_cache_group_engage(&cache, 1, 0) == FSTCH_DONE);
    MUST(fstch_cache_group_disengage(&cache, 1, 0) == FSTCH_DONE);
    return cache;
}

/* That the cache is as cache_at_work has left it. */
static void wants_as_before(fstch_cache *cache) {
    uint32_t blocks = LEFT, made = LEFT, live = LEFT, below = LEFT, changes = LEFT, mark = LEFT;
    uint8_t read[FSTCH_BLOCK];
    MUST(fstch_cache_counts(cache, &blocks, &made, &live, &below) == FSTCH_DONE);
    MUST(blocks == BLOCKS && made == 4 && live == 4 && below == 0);
    MUST(holds(cache, 0, "firstsecond") && holds(cache, 1, "third") && holds(cache, 2, "fourth"));
    MUST(fstch_cache_read(cache, BLOCKS - 1, 0, 1, read) == FSTCH_NOT_RESIDENT);
    MUST(fstch_cache_mark(cache, 2, &mark) == FSTCH_DONE && mark == FSTCH_MARK_MEMORY);
    MUST(fstch_cache_mark(cache, 3, &mark) == FSTCH_DONE && mark == FSTCH_MARK_FLIGHT);
    MUST(fstch_cache_group_pending(cache, 2, &changes) == FSTCH_DONE && changes == 0);
    MUST(fstch_cache_group_pending(cache, 3, &changes) == FSTCH_NO_SUCH_GROUP);
    MUST(fstch_cache_group_disengage(cache, 1, 5) == FSTCH_NOT_ENGAGED);
}

/* Makes a call with one allocation more each time, until it is done. How often it was refused. */
static long refusals_of(called call) {
    long tries = 0;
    for (int32_t answer = FSTCH_OUT_OF_MEMORY; answer != FSTCH_DONE && tries < MOST_TRIES; tries++) {
        fstch_cache cache = cache_at_work();
        set = other_set = LEFT;
        memset(image, 'x', sizeof image);
        allocations_till_refused = tries;
        answer = call(&cache);
        allocations_till_refused = -1;
        if (answer != FSTCH_DONE) {
            MUST(answer == FSTCH_OUT_OF_MEMORY && set == LEFT && other_set == LEFT && image[0] == 'x' && image[FSTCH_BLOCK - 1] == 'x');
            wants_as_before(&cache);
            WANT(FSTCH_DONE, call(&cache));
        }
        WANT(FSTCH_DONE, fstch_cache_close(&cache));
    }
    MUST(tries < MOST_TRIES);
    return tries - 1;
}

static void calls_without_memory_change_nothing(void) {
    for (size_t it = 0; it < sizeof CALLS / sizeof CALLS[0]; it++) {
        printf("%s: refused %ld times\n", CALLS[it].name, refusals_of(CALLS[it].call));
    }
}

static void opens_without_memory_leave_it_closed(void) {
    fstch_cache cache = FSTCH_CLOSED;
    int32_t answer = FSTCH_OUT_OF_MEMORY;
    for (long tries = 0; answer != FSTCH_DONE && tries < MOST_TRIES; tries++) {
        WANT(true, !cache.is_open && cache.at == NULL);
        allocations_till_refused = tries;
        answer = fstch_cache_open(&cache, FSTCH_MAX_BLOCKS);
        allocations_till_refused = -1;
        MUST(answer == FSTCH_DONE || answer == FSTCH_OUT_OF_MEMORY);
    }
    WANT(FSTCH_DONE, fstch_cache_close(&cache));
}

/* What needs no memory goes on without any. */
static void writes_are_completed_without_memory(void) {
    fstch_cache cache = cache_at_work();
    uint32_t number = LEFT, block = LEFT;
    WANT(FSTCH_DONE, fstch_cache_send(&cache, 1, &number, image, sizeof image));
    allocations_till_refused = 0;
    is_without_memory = 1;
    WANT(FSTCH_DONE, fstch_cache_next(&cache, &block));
    WANT(FSTCH_DONE, fstch_cache_image(&cache, 1, number, image, sizeof image));
    WANT(FSTCH_DONE, fstch_cache_complete(&cache, 1, number));
    WANT(FSTCH_DONE, fstch_cache_complete(&cache, 2, number - 1));
    WANT(FSTCH_DONE, fstch_cache_evict(&cache, 2));
    is_without_memory = 0;
    allocations_till_refused = -1;
    write_all(&cache);
    WANT(FSTCH_DONE, fstch_cache_group_close(&cache, 1));
    is_without_memory = 1;
    allocations_till_refused = 0;
    WANT(FSTCH_DONE, fstch_cache_renew(&cache));
    WANT(FSTCH_DONE, fstch_cache_close(&cache));
    is_without_memory = 0;
    allocations_till_refused = -1;
}

int main(void) {
    calls_without_memory_change_nothing();
    opens_without_memory_leave_it_closed();
    writes_are_completed_without_memory();
    return ended();
}
