/* Each call of fstch_cache.h: what it does, and each refusal that a program can bring about, by its number. Also read as C++. */
#include "caching.h"

enum { MOST_GROUPS = 1024 };

static void closed_caches_are_refused(void) {
    fstch_cache cache = FSTCH_CLOSED;
    uint8_t into[FSTCH_BLOCK] = {1, 2, 3, 4};
    uint32_t a = LEFT, b = LEFT, c = LEFT, d = LEFT;
    size_t count = LEFT;
    WANT(FSTCH_NOT_OPEN, fstch_cache_close(&cache));
    WANT(FSTCH_NOT_OPEN, fstch_cache_admit(&cache, 0, into));
    WANT(FSTCH_NOT_OPEN, fstch_cache_evict(&cache, 0));
    WANT(FSTCH_NOT_OPEN, fstch_cache_renew(&cache));
    WANT(FSTCH_NOT_OPEN, fstch_cache_counts(&cache, &a, &b, &c, &d));
    WANT(FSTCH_NOT_OPEN, fstch_cache_patch(&cache, FSTCH_WRITERS, 0, 0, into, 4, &a, 0, 0, &b));
    WANT(FSTCH_NOT_OPEN, fstch_cache_merge(&cache, 0, 1, &a, &b));
    WANT(FSTCH_NOT_OPEN, fstch_cache_mark(&cache, 0, &a));
    WANT(FSTCH_NOT_OPEN, fstch_cache_read(&cache, 0, 0, 4, into));
    WANT(FSTCH_NOT_OPEN, fstch_cache_without(&cache, 0, &a, 1, 0, 4, into, &b));
    WANT(FSTCH_NOT_OPEN, fstch_cache_next(&cache, &a));
    WANT(FSTCH_NOT_OPEN, fstch_cache_send(&cache, 0, &a, into, sizeof into));
    WANT(FSTCH_NOT_OPEN, fstch_cache_image(&cache, 0, 0, into, sizeof into));
    WANT(FSTCH_NOT_OPEN, fstch_cache_flight(&cache, 0, 0, &a, 1, &count));
    WANT(FSTCH_NOT_OPEN, fstch_cache_complete(&cache, 0, 0));
    WANT(FSTCH_NOT_OPEN, fstch_cache_group(&cache, &a));
    WANT(FSTCH_NOT_OPEN, fstch_cache_group_engage(&cache, 0, 0));
    WANT(FSTCH_NOT_OPEN, fstch_cache_group_disengage(&cache, 0, 0));
    WANT(FSTCH_NOT_OPEN, fstch_cache_group_depend(&cache, 1, 0));
    WANT(FSTCH_NOT_OPEN, fstch_cache_group_close(&cache, 0));
    WANT(FSTCH_NOT_OPEN, fstch_cache_group_pending(&cache, 0, &a));
    WANT(true, !cache.is_open && cache.at == NULL);
    WANT(true, a == LEFT && b == LEFT && c == LEFT && d == LEFT && count == LEFT);
    WANT(0, memcmp(into, "\1\2\3\4", 4));
}

static void caches_are_opened_once(void) {
    fstch_cache cache = FSTCH_CLOSED;
    uint32_t blocks = LEFT, made = LEFT, live = LEFT, below = LEFT;
    WANT(FSTCH_FILE_SIZE, fstch_cache_open(&cache, 0));
    WANT(FSTCH_FILE_SIZE, fstch_cache_open(&cache, FSTCH_MAX_BLOCKS + 1));
    WANT(FSTCH_FILE_SIZE, fstch_cache_open(&cache, UINT32_MAX));
    WANT(true, !cache.is_open && cache.at == NULL);
    WANT(FSTCH_DONE, fstch_cache_open(&cache, FSTCH_MAX_BLOCKS));
    WANT(true, cache.is_open);
    WANT(FSTCH_IS_OPEN, fstch_cache_open(&cache, 1));
    WANT(FSTCH_IS_OPEN, fstch_cache_open(&cache, 0));
    WANT(FSTCH_DONE, fstch_cache_counts(&cache, &blocks, &made, &live, &below));
    WANT(FSTCH_MAX_BLOCKS, blocks);
    WANT(true, made == 0 && live == 0 && below == 0);
    WANT(FSTCH_DONE, fstch_cache_close(&cache));
    WANT(true, !cache.is_open && cache.at == NULL);
    WANT(FSTCH_NOT_OPEN, fstch_cache_close(&cache));
}

static void blocks_come_and_go(void) {
    fstch_cache cache = new_cache(FSTCH_MAX_BLOCKS, 1);
    uint8_t block[FSTCH_BLOCK], into[FSTCH_BLOCK];
    uint32_t last = FSTCH_MAX_BLOCKS - 1, patch = LEFT;
    memset(block, 'b', sizeof block);
    WANT(FSTCH_NO_SUCH_BLOCK, fstch_cache_admit(&cache, FSTCH_MAX_BLOCKS, block));
    WANT(FSTCH_IS_RESIDENT, fstch_cache_admit(&cache, 0, block));
    WANT(FSTCH_NO_SUCH_BLOCK, fstch_cache_evict(&cache, UINT32_MAX));
    WANT(FSTCH_NOT_RESIDENT, fstch_cache_evict(&cache, last));
    WANT(FSTCH_NOT_RESIDENT, fstch_cache_read(&cache, last, 0, 0, into));
    WANT(FSTCH_NOT_RESIDENT, fstch_cache_read(&cache, last, 5000, 1, into));
    WANT(FSTCH_NOT_RESIDENT, fstch_cache_without(&cache, last, &patch, 1, 0, 1, into, &patch));
    WANT(FSTCH_NOT_RESIDENT, lay(&cache, last, 0, "", LEFT, &patch));
    WANT(FSTCH_NOT_RESIDENT, fstch_cache_send(&cache, last, &patch, into, sizeof into));
    WANT(FSTCH_DONE, fstch_cache_admit(&cache, last, block));
    memset(block, 'c', sizeof block); /* it was copied */
    WANT(FSTCH_DONE, fstch_cache_read(&cache, last, 0, sizeof into, into));
    WANT(true, into[0] == 'b' && into[FSTCH_BLOCK - 1] == 'b');
    WANT(FSTCH_DONE, fstch_cache_read(&cache, last, 0, 0, into));
    laid(&cache, last, 0, "text", LEFT);
    WANT(FSTCH_LIVE, fstch_cache_evict(&cache, last));
    uint32_t number = sent(&cache, last, "textbb");
    WANT(FSTCH_LIVE, fstch_cache_evict(&cache, last));
    WANT(FSTCH_DONE, fstch_cache_complete(&cache, last, number));
    WANT(FSTCH_DONE, fstch_cache_evict(&cache, last));
    WANT(FSTCH_NOT_RESIDENT, fstch_cache_evict(&cache, last));
    WANT(FSTCH_DONE, fstch_cache_mark(&cache, 0, &patch));
    WANT(FSTCH_MARK_DURABLE, patch);
    WANT(FSTCH_DONE, fstch_cache_close(&cache));
}

static void patches_are_refused(void) {
    fstch_cache cache = new_cache(2, 1);
    static const uint8_t bytes[FSTCH_BLOCK + 1] = {0};
    uint32_t after[2] = {0, 0}, patch = LEFT;
    WANT(FSTCH_BAD_WRITER, fstch_cache_patch(&cache, FSTCH_WRITERS, 2, 0, bytes, 0, after, 1, 0, &patch));
    WANT(FSTCH_BAD_WRITER, fstch_cache_patch(&cache, FSTCH_NO_WRITER - 1, 0, 0, bytes, 1, after, 0, 0, &patch));
    WANT(FSTCH_NO_SUCH_BLOCK, fstch_cache_patch(&cache, 0, 2, 0, bytes, 0, after, 1, 0, &patch));
    WANT(FSTCH_NOT_RESIDENT, fstch_cache_patch(&cache, 0, 1, 0, bytes, 0, after, 1, 0, &patch));
    WANT(FSTCH_EMPTY_PATCH, fstch_cache_patch(&cache, 0, 0, 5000, bytes, 0, after, 1, 0, &patch));
    WANT(FSTCH_OUT_OF_BLOCK, fstch_cache_patch(&cache, 0, 0, FSTCH_BLOCK, bytes, 1, after, 1, 0, &patch));
    WANT(FSTCH_OUT_OF_BLOCK, fstch_cache_patch(&cache, 0, 0, 1, bytes, FSTCH_BLOCK, after, 1, 0, &patch));
    WANT(FSTCH_OUT_OF_BLOCK, fstch_cache_patch(&cache, 0, 0, 0, bytes, FSTCH_BLOCK + 1, after, 1, 0, &patch));
    WANT(FSTCH_OUT_OF_BLOCK, fstch_cache_patch(&cache, 0, 0, SIZE_MAX, bytes, 1, after, 1, 0, &patch));
    WANT(FSTCH_UNKNOWN_DEPENDENCY, fstch_cache_patch(&cache, 0, 0, 0, bytes, 1, after, 1, 0, &patch));
    WANT(LEFT, patch);
    WANT(FSTCH_DONE, fstch_cache_patch(&cache, 6, 0, 0, bytes, FSTCH_BLOCK, after, 0, 0, &patch));
    WANT(0, patch);
    WANT(FSTCH_DONE, fstch_cache_patch(&cache, FSTCH_NO_WRITER, 0, FSTCH_BLOCK - 1, bytes, 1, after, 2, FSTCH_MAY_DROP, &patch));
    WANT(1, patch);
    after[1] = 2;
    WANT(FSTCH_UNKNOWN_DEPENDENCY, fstch_cache_patch(&cache, 0, 0, 0, bytes, 1, after, 2, 0, &patch));
    WANT(1, patch);
    WANT(FSTCH_DONE, fstch_cache_close(&cache));
}

/* What waits is taken back in the image, and in nothing else. */
static void writes_keep_the_order(void) {
    fstch_cache cache = new_cache(2, 2);
    uint8_t image[FSTCH_BLOCK], again[FSTCH_BLOCK];
    uint32_t patches[4] = {LEFT, LEFT, LEFT, LEFT}, block = LEFT, number = LEFT, mark = LEFT, made = LEFT, live = LEFT, below = LEFT;
    size_t count = LEFT;
    WANT(FSTCH_NOTHING_READY, fstch_cache_next(&cache, &block));
    WANT(FSTCH_NOTHING_READY, fstch_cache_send(&cache, 0, &number, image, sizeof image));
    uint32_t data = laid(&cache, 1, 0, "data", LEFT);
    uint32_t name = laid(&cache, 0, 0, "name", data);
    uint32_t other = laid(&cache, 0, 8, "other", LEFT);
    WANT(true, holds(&cache, 0, "name"));
    WANT(FSTCH_BUFFER_TOO_SMALL, fstch_cache_send(&cache, 0, &number, image, sizeof image - 1));
    WANT(FSTCH_BUFFER_TOO_SMALL, fstch_cache_send(&cache, 2, &number, image, 0));
    WANT(FSTCH_NO_SUCH_BLOCK, fstch_cache_send(&cache, 2, &number, image, sizeof image));
    WANT(LEFT, number);
    uint32_t first = sent(&cache, 0, "\0\0\0\0");
    WANT(FSTCH_ALREADY_IN_FLIGHT, fstch_cache_send(&cache, 0, &number, image, sizeof image));
    WANT(true, holds(&cache, 0, "name"));
    WANT(FSTCH_DONE, fstch_cache_flight(&cache, 0, first, patches, 4, &count));
    WANT(1, count);
    WANT(other, patches[0]);
    WANT(LEFT, patches[1]);
    WANT(FSTCH_DONE, fstch_cache_mark(&cache, other, &mark));
    WANT(FSTCH_MARK_FLIGHT, mark);
    WANT(FSTCH_DONE, fstch_cache_mark(&cache, name, &mark));
    WANT(FSTCH_MARK_MEMORY, mark);
    uint32_t second = sent(&cache, 1, "data");
    WANT(true, first == 0 && second == 1);
    WANT(FSTCH_NOTHING_READY, fstch_cache_next(&cache, &block));
    WANT(FSTCH_DONE, fstch_cache_complete(&cache, 0, first));
    WANT(FSTCH_NOTHING_READY, fstch_cache_send(&cache, 0, &number, image, sizeof image)); /* the data isn't there yet */
    WANT(FSTCH_DONE, fstch_cache_counts(&cache, &block, &made, &live, &below));
    WANT(true, block == 2 && made == 3 && live == 2 && below == 0);
    WANT(FSTCH_DONE, fstch_cache_image(&cache, 1, second, image, sizeof image));
    WANT(0, memcmp(image, "data", 4));
    WANT(FSTCH_BUFFER_TOO_SMALL, fstch_cache_image(&cache, 1, second, again, sizeof again - 1));
    WANT(FSTCH_DONE, fstch_cache_complete(&cache, 1, second));
    uint32_t third = sent(&cache, 0, "name\0\0\0\0other");
    WANT(FSTCH_DONE, fstch_cache_image(&cache, 0, third, image, sizeof image));
    laid(&cache, 0, 0, "later", LEFT);
    WANT(FSTCH_DONE, fstch_cache_image(&cache, 0, third, again, sizeof again));
    WANT(0, memcmp(image, again, sizeof image));
    WANT(FSTCH_DONE, fstch_cache_complete(&cache, 0, third));
    write_all(&cache);
    WANT(FSTCH_DONE, fstch_cache_counts(&cache, &block, &made, &live, &below));
    WANT(true, made == 4 && live == 0 && below <= 4);
    WANT(FSTCH_UNKNOWN, fstch_cache_mark(&cache, 4, &mark));
    WANT(FSTCH_MARK_MEMORY, mark);
    WANT(FSTCH_DONE, fstch_cache_close(&cache));
}

static void strangers_are_refused(void) {
    fstch_cache cache = new_cache(2, 2);
    uint8_t image[FSTCH_BLOCK];
    uint32_t patches[2] = {LEFT, LEFT};
    size_t count = LEFT;
    laid(&cache, 0, 0, "a", LEFT);
    laid(&cache, 0, 9, "b", LEFT);
    uint32_t number = sent(&cache, 0, "a");
    const uint32_t wrong[4][2] = {{1, number}, {0, number + 1}, {2, number}, {UINT32_MAX, UINT32_MAX}};
    for (int it = 0; it < 4; it++) {
        WANT(FSTCH_STRANGER, fstch_cache_complete(&cache, wrong[it][0], wrong[it][1]));
        WANT(FSTCH_STRANGER, fstch_cache_image(&cache, wrong[it][0], wrong[it][1], image, 0));
        WANT(FSTCH_STRANGER, fstch_cache_flight(&cache, wrong[it][0], wrong[it][1], patches, 2, &count));
    }
    WANT(LEFT, count);
    WANT(FSTCH_BUFFER_TOO_SMALL, fstch_cache_flight(&cache, 0, number, patches, 1, &count));
    WANT(2, count);
    WANT(LEFT, patches[0]);
    WANT(FSTCH_DONE, fstch_cache_flight(&cache, 0, number, patches, 2, &count));
    WANT(true, patches[0] == 0 && patches[1] == 1);
    WANT(FSTCH_DONE, fstch_cache_complete(&cache, 0, number));
    WANT(FSTCH_STRANGER, fstch_cache_complete(&cache, 0, number)); /* it was completed */
    WANT(FSTCH_STRANGER, fstch_cache_image(&cache, 0, number, image, sizeof image));
    laid(&cache, 0, 0, "c", LEFT);
    WANT(number + 1, sent(&cache, 0, "c"));
    WANT(FSTCH_STRANGER, fstch_cache_complete(&cache, 0, number));
    WANT(FSTCH_DONE, fstch_cache_close(&cache));
}

static void classes_are_merged(void) {
    fstch_cache cache = new_cache(2, 2);
    uint32_t name = LEFT, which = LEFT;
    uint32_t a = laid(&cache, 0, 0, "aa", LEFT), b = laid(&cache, 0, 2, "bb", LEFT), far = laid(&cache, 0, 9, "f", LEFT);
    uint32_t other = laid(&cache, 1, 0, "other", a), back = laid(&cache, 0, 4, "back", other);
    WANT(FSTCH_UNKNOWN, fstch_cache_merge(&cache, a, back + 1, &name, &which));
    WANT(FSTCH_SAME, fstch_cache_merge(&cache, a, a, &name, &which));
    WANT(FSTCH_OTHER_BLOCK, fstch_cache_merge(&cache, a, other, &name, &which));
    WANT(FSTCH_APART, fstch_cache_merge(&cache, a, far, &name, &which));
    WANT(true, name == LEFT && which == LEFT);
    WANT(FSTCH_DONE, fstch_cache_merge(&cache, b, a, &name, &which));
    WANT(a, name);
    WANT(FSTCH_SAME, fstch_cache_merge(&cache, a, b, &name, &which));
    WANT(FSTCH_WOULD_CYCLE, fstch_cache_merge(&cache, back, b, &name, &which));
    WANT(other, which);
    uint32_t hard = LEFT;
    WANT(FSTCH_DONE, fstch_cache_patch(&cache, 0, 0, 100, "hard", 4, &a, 0, FSTCH_MAY_DROP, &hard));
    uint32_t beside = laid(&cache, 0, 104, "beside", LEFT);
    WANT(FSTCH_HARD, fstch_cache_merge(&cache, beside, hard, &name, &which));
    WANT(hard, which);
    sent(&cache, 0, "aabb");
    WANT(FSTCH_NOT_IN_MEMORY, fstch_cache_merge(&cache, back, b, &name, &which));
    WANT(b, which);
    WANT(a, name);
    WANT(FSTCH_DONE, fstch_cache_close(&cache));
}

/* A class goes to the disk as a whole. */
static void a_class_waits_for_all_of_it(void) {
    fstch_cache cache = new_cache(2, 2);
    uint32_t name = LEFT, which = LEFT, block = LEFT;
    uint32_t data = laid(&cache, 1, 0, "data", LEFT), early = laid(&cache, 0, 0, "ab", LEFT), late = laid(&cache, 0, 2, "cd", data);
    WANT(FSTCH_DONE, fstch_cache_merge(&cache, early, late, &name, &which));
    uint32_t number = sent(&cache, 1, "data");
    WANT(FSTCH_NOTHING_READY, fstch_cache_next(&cache, &block));
    WANT(FSTCH_DONE, fstch_cache_complete(&cache, 1, number));
    sent(&cache, 0, "abcd");
    WANT(FSTCH_DONE, fstch_cache_close(&cache));
}

static void patches_are_left_out(void) {
    fstch_cache cache = new_cache(2, 2);
    uint8_t into[6];
    uint32_t which = LEFT, hard = LEFT;
    uint32_t low = laid(&cache, 0, 0, "aaaa", LEFT), high = laid(&cache, 0, 2, "bbbb", LEFT), other = laid(&cache, 1, 0, "c", LEFT);
    const uint32_t both[2] = {high, low}, twice[2] = {high, high}, unknown[1] = {LEFT};
    WANT(FSTCH_DONE, fstch_cache_without(&cache, 0, both, 2, 0, 6, into, &which));
    WANT(0, memcmp(into, "\0\0\0\0\0\0", 6));
    WANT(FSTCH_DONE, fstch_cache_without(&cache, 0, both, 1, 0, 6, into, &which));
    WANT(0, memcmp(into, "aaaa\0\0", 6));
    WANT(FSTCH_DONE, fstch_cache_without(&cache, 0, both, 0, 1, 3, into, &which));
    WANT(0, memcmp(into, "abb", 3));
    WANT(LEFT, which);
    memset(into, 'x', sizeof into);
    WANT(FSTCH_DEPENDENT_APPLIED, fstch_cache_without(&cache, 0, &low, 1, 0, 6, into, &which));
    WANT(high, which);
    which = LEFT;
    WANT(FSTCH_ALREADY_TAKEN, fstch_cache_without(&cache, 0, twice, 2, 0, 6, into, &which));
    WANT(FSTCH_UNKNOWN, fstch_cache_without(&cache, 0, unknown, 1, 0, 6, into, &which));
    WANT(FSTCH_UNKNOWN, fstch_cache_without(&cache, 0, &other, 1, 0, 6, into, &which));
    WANT(FSTCH_NO_SUCH_BLOCK, fstch_cache_without(&cache, 2, &other, 1, 0, 6, into, &which));
    WANT(FSTCH_OUT_OF_BLOCK, fstch_cache_without(&cache, 0, unknown, 1, FSTCH_BLOCK - 5, 6, into, &which));
    WANT(FSTCH_OUT_OF_BLOCK, fstch_cache_read(&cache, 0, FSTCH_BLOCK - 5, 6, into));
    WANT(FSTCH_OUT_OF_BLOCK, fstch_cache_read(&cache, 0, SIZE_MAX, 2, into));
    WANT(FSTCH_NO_SUCH_BLOCK, fstch_cache_read(&cache, 2, 0, 0, into));
    WANT(FSTCH_DONE, fstch_cache_patch(&cache, 0, 0, 100, "hard", 4, &low, 0, FSTCH_MAY_DROP, &hard));
    WANT(FSTCH_HARD, fstch_cache_without(&cache, 0, &hard, 1, 0, 6, into, &which));
    uint32_t number = sent(&cache, 0, "aabbbb");
    WANT(FSTCH_IN_FLIGHT, fstch_cache_without(&cache, 0, &high, 1, 0, 6, into, &which));
    WANT(FSTCH_DONE, fstch_cache_complete(&cache, 0, number));
    WANT(FSTCH_DURABLE, fstch_cache_without(&cache, 0, &high, 1, 0, 6, into, &which));
    WANT(FSTCH_DURABLE, fstch_cache_without(&cache, 1, &high, 1, 0, 6, into, &which));
    WANT(LEFT, which);
    WANT(0, memcmp(into, "xxxxxx", 6));
    WANT(true, holds(&cache, 0, "aabbbb"));
    WANT(FSTCH_DONE, fstch_cache_close(&cache));
}

static void caches_are_renewed(void) {
    fstch_cache cache = new_cache(1, 1);
    uint32_t group = LEFT, made = LEFT, live = LEFT, below = LEFT, blocks = LEFT, patch = LEFT;
    for (int round = 0; round < 3; round++) {
        WANT(0, laid(&cache, 0, 0, round == 0 ? "one" : "two", LEFT));
        WANT(FSTCH_LIVE, fstch_cache_renew(&cache));
        uint32_t number = sent(&cache, 0, round == 0 ? "one" : "two");
        WANT(0, number);
        WANT(FSTCH_LIVE, fstch_cache_renew(&cache));
        WANT(FSTCH_DONE, fstch_cache_complete(&cache, 0, number));
        WANT(FSTCH_DONE, fstch_cache_group(&cache, &group));
        WANT(0, group);
        WANT(FSTCH_DONE, fstch_cache_group(&cache, &group)); /* (that nobody engages) */
        WANT(FSTCH_DONE, fstch_cache_group_engage(&cache, 0, 0));
        WANT(FSTCH_LIVE, fstch_cache_renew(&cache));
        WANT(FSTCH_DONE, fstch_cache_group_disengage(&cache, 0, 0));
        WANT(FSTCH_LIVE, fstch_cache_renew(&cache));
        WANT(FSTCH_DONE, fstch_cache_group_close(&cache, 0));
        WANT(FSTCH_DONE, fstch_cache_renew(&cache));
        WANT(FSTCH_DONE, fstch_cache_counts(&cache, &blocks, &made, &live, &below));
        WANT(true, blocks == 1 && made == 0 && live == 0 && below == 0);
        WANT(FSTCH_UNKNOWN_DEPENDENCY, lay(&cache, 0, 0, "x", 0, &patch));
        WANT(FSTCH_STRANGER, fstch_cache_complete(&cache, 0, number));
        WANT(FSTCH_NO_SUCH_GROUP, fstch_cache_group_close(&cache, 1));
        WANT(true, holds(&cache, 0, round == 0 ? "one" : "two"));
        WANT(FSTCH_DONE, fstch_cache_renew(&cache));
    }
    WANT(FSTCH_DONE, fstch_cache_close(&cache));
}

static int32_t lay_by(fstch_cache *cache, uint32_t writer, uint32_t block, const char *text) {
    uint32_t patch = LEFT;
    return fstch_cache_patch(cache, writer, block, 0, text, strlen(text), &patch, 0, 0, &patch);
}

static void groups_are_kept_in_order(void) {
    fstch_cache cache = new_cache(2, 2);
    uint32_t first = LEFT, second = LEFT, changes = LEFT, block = LEFT;
    WANT(FSTCH_NO_SUCH_GROUP, fstch_cache_group_pending(&cache, 0, &changes));
    WANT(LEFT, changes);
    WANT(FSTCH_DONE, fstch_cache_group(&cache, &first));
    WANT(FSTCH_DONE, fstch_cache_group(&cache, &second));
    WANT(true, first == 0 && second == 1);
    WANT(FSTCH_BAD_WRITER, fstch_cache_group_engage(&cache, 2, FSTCH_WRITERS));
    WANT(FSTCH_BAD_WRITER, fstch_cache_group_engage(&cache, first, FSTCH_NO_WRITER));
    WANT(FSTCH_NO_SUCH_GROUP, fstch_cache_group_engage(&cache, 2, 0));
    WANT(FSTCH_DONE, fstch_cache_group_engage(&cache, first, 0));
    WANT(FSTCH_ENGAGED, fstch_cache_group_engage(&cache, first, 0));
    WANT(FSTCH_DONE, lay_by(&cache, 1, 0, "no group"));
    WANT(FSTCH_DONE, lay_by(&cache, FSTCH_NO_WRITER, 0, "no writer"));
    WANT(FSTCH_DONE, fstch_cache_group_pending(&cache, first, &changes));
    WANT(0, changes);
    write_all(&cache);
    WANT(FSTCH_DONE, lay_by(&cache, 0, 1, "data"));
    WANT(FSTCH_DONE, fstch_cache_group_pending(&cache, first, &changes));
    WANT(1, changes);
    WANT(FSTCH_ENGAGED, fstch_cache_group_depend(&cache, second, first));
    WANT(FSTCH_ENGAGED, fstch_cache_group_close(&cache, first));
    WANT(FSTCH_BAD_WRITER, fstch_cache_group_disengage(&cache, first, FSTCH_WRITERS));
    WANT(FSTCH_NOT_ENGAGED, fstch_cache_group_disengage(&cache, first, 1));
    WANT(FSTCH_DONE, fstch_cache_group_disengage(&cache, first, 0));
    WANT(FSTCH_NO_SUCH_GROUP, fstch_cache_group_disengage(&cache, 2, 0));
    WANT(FSTCH_SAME_GROUP, fstch_cache_group_depend(&cache, first, first));
    WANT(FSTCH_NO_SUCH_GROUP, fstch_cache_group_depend(&cache, first, 2));
    WANT(FSTCH_STARTED, fstch_cache_group_depend(&cache, first, second));
    WANT(FSTCH_DONE, fstch_cache_group_depend(&cache, second, first));
    WANT(FSTCH_SEALED, fstch_cache_group_engage(&cache, first, 0));
    WANT(FSTCH_SEALED, fstch_cache_group_depend(&cache, first, second));
    WANT(FSTCH_DONE, fstch_cache_group_engage(&cache, second, 0));
    WANT(FSTCH_DONE, lay_by(&cache, 0, 0, "name"));
    WANT(FSTCH_DONE, fstch_cache_group_disengage(&cache, second, 0));
    WANT(FSTCH_DONE, fstch_cache_group_close(&cache, first));
    WANT(FSTCH_NO_SUCH_GROUP, fstch_cache_group_close(&cache, first));
    uint32_t number = sent(&cache, 1, "data"); /* block 0 has to wait */
    WANT(FSTCH_NOTHING_READY, fstch_cache_next(&cache, &block));
    WANT(FSTCH_DONE, fstch_cache_complete(&cache, 1, number));
    write_all(&cache);
    WANT(FSTCH_DONE, fstch_cache_group_pending(&cache, second, &changes));
    WANT(0, changes);
    for (uint32_t count = 2; count < MOST_GROUPS; count++) {
        WANT(FSTCH_DONE, fstch_cache_group(&cache, &first));
    }
    WANT(MOST_GROUPS - 1, first);
    WANT(FSTCH_TOO_MANY_GROUPS, fstch_cache_group(&cache, &first));
    WANT(MOST_GROUPS - 1, first);
    WANT(FSTCH_DONE, fstch_cache_close(&cache));
}

static void live_patches_have_a_limit(void) {
    fstch_cache cache = new_cache(1, 1);
    uint32_t patch = LEFT;
    int32_t answer = FSTCH_DONE;
    for (uint32_t made = 0; made < FSTCH_MAX_LIVE && answer == FSTCH_DONE; made++) {
        answer = lay(&cache, 0, made % FSTCH_BLOCK, "x", LEFT, &patch);
    }
    WANT(FSTCH_DONE, answer);
    WANT(FSTCH_MAX_LIVE - 1, patch);
    WANT(FSTCH_TOO_MANY_LIVE, lay(&cache, 0, 0, "x", LEFT, &patch));
    WANT(FSTCH_MAX_LIVE - 1, patch);
    WANT(FSTCH_DONE, fstch_cache_close(&cache));
}

static void answers_have_texts(void) {
    static const int32_t answers[] = {
        FSTCH_NO_SUCH_BLOCK, FSTCH_UNKNOWN, FSTCH_DURABLE, FSTCH_IN_FLIGHT, FSTCH_HARD, FSTCH_ALREADY_TAKEN, FSTCH_DEPENDENT_APPLIED,
        FSTCH_EMPTY_PATCH, FSTCH_OUT_OF_BLOCK, FSTCH_UNKNOWN_DEPENDENCY, FSTCH_NOT_IN_MEMORY, FSTCH_SAME, FSTCH_OTHER_BLOCK, FSTCH_APART,
        FSTCH_WOULD_CYCLE, FSTCH_ALREADY_IN_FLIGHT, FSTCH_NOTHING_READY, FSTCH_STRANGER, FSTCH_LIVE, FSTCH_NOT_RESIDENT, FSTCH_IS_RESIDENT,
    };
    for (size_t it = 0; it < sizeof answers / sizeof answers[0]; it++) {
        char text[64] = "", unknown[64] = "";
        size_t length = fstch_error_text(answers[it], text, sizeof text);
        fstch_error_text(LEFT, unknown, sizeof unknown);
        WANT(length, strlen(text));
        WANT(true, strcmp(text, unknown) != 0);
    }
}

int main(void) {
    closed_caches_are_refused();
    caches_are_opened_once();
    blocks_come_and_go();
    patches_are_refused();
    writes_keep_the_order();
    strangers_are_refused();
    classes_are_merged();
    a_class_waits_for_all_of_it();
    patches_are_left_out();
    caches_are_renewed();
    groups_are_kept_in_order();
    live_patches_have_a_limit();
    answers_have_texts();
    return ended();
}
