/* What the C programs beside it that use a cache share: caches whose blocks are zeros at first, and patches of texts. */
#ifndef CACHING_H
#define CACHING_H

#include "wanting.h"

#include <fstch_cache.h>

/* What stands where a call is to set a number. */
enum { LEFT = 777777 };

/* Opens a cache of so many blocks, of which the first ones are resident. */
static inline fstch_cache new_cache(uint32_t blocks, uint32_t resident) {
    static const uint8_t zeros[FSTCH_BLOCK] = {0};
    fstch_cache cache = FSTCH_CLOSED;
    WANT(FSTCH_DONE, fstch_cache_open(&cache, blocks));
    for (uint32_t block = 0; block < resident; block++) {
        WANT(FSTCH_DONE, fstch_cache_admit(&cache, block, zeros));
    }
    return cache;
}

/* A patch that names at most one other; LEFT names none. */
static inline int32_t lay(fstch_cache *cache, uint32_t block, size_t start, const char *text, uint32_t after, uint32_t *patch) {
    return fstch_cache_patch(cache, FSTCH_NO_WRITER, block, start, text, strlen(text), &after, after != LEFT, 0, patch);
}

/* The number of a patch that is made. */
static inline uint32_t laid(fstch_cache *cache, uint32_t block, size_t start, const char *text, uint32_t after) {
    uint32_t patch = LEFT;
    WANT(FSTCH_DONE, lay(cache, block, start, text, after, &patch));
    return patch;
}

/* Whether so many bytes of a block, at its front, are those of this text. */
static inline bool holds(fstch_cache *cache, uint32_t block, const char *text) {
    char into[64];
    MUST(strlen(text) <= sizeof into);
    return fstch_cache_read(cache, block, 0, strlen(text), into) == FSTCH_DONE && memcmp(into, text, strlen(text)) == 0;
}

/* Begins the write of a block that has to be the next, and wants this text at the front of its image. The write's number. */
static inline uint32_t sent(fstch_cache *cache, uint32_t block, const char *text) {
    uint8_t image[FSTCH_BLOCK];
    uint32_t next = LEFT, number = LEFT;
    WANT(FSTCH_DONE, fstch_cache_next(cache, &next));
    WANT(block, next);
    WANT(FSTCH_DONE, fstch_cache_send(cache, block, &number, image, sizeof image));
    WANT(0, memcmp(image, text, strlen(text)));
    return number;
}

/* Begins all writes that can begin, and completes them, until there is none. */
static inline void write_all(fstch_cache *cache) {
    uint8_t image[FSTCH_BLOCK];
    uint32_t block = LEFT, number = LEFT;
    while (fstch_cache_next(cache, &block) == FSTCH_DONE) {
        WANT(FSTCH_DONE, fstch_cache_send(cache, block, &number, image, sizeof image));
        WANT(FSTCH_DONE, fstch_cache_complete(cache, block, number));
    }
}

#endif
