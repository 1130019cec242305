/* The calls of fstch_cache.h whose buffers the proved calls of core.h take with their lengths right behind them. All others of that header are
 * proved calls themselves. */
#include "core.h"

int32_t fstch_cache_admit(fstch_cache *cache, uint32_t block, const void *bytes) {
    return fstch_core_cache_admit(cache, block, bytes, FSTCH_BLOCK);
}

int32_t fstch_cache_read(fstch_cache *cache, uint32_t block, size_t start, size_t length, void *into) {
    return fstch_core_cache_read(cache, block, start, into, length);
}

int32_t fstch_cache_without(fstch_cache *cache, uint32_t block, const uint32_t *patches, size_t count, size_t start, size_t length,
                            void *into, uint32_t *which) {
    return fstch_core_cache_without(cache, block, patches, count, start, into, length, which);
}
