/* The proved calls that fstch.c and cache.c stand on: exports of the crates patch_c and patch_engine_c that no program sees, since
 * build-library hides their names. They read and write no file. What fstch.h and fstch_cache.h say of stores, of caches, of buffers and of
 * answers holds of these too. */
#ifndef FSTCH_CORE_H
#define FSTCH_CORE_H

#include "fstch.h"
#include "fstch_cache.h"

/* Copies the first block of a new store, 4,096 bytes, to the front of `into`, and sets `blocks` to how many its file has. All others
 * are zeros.
 *
 * FSTCH_GEOMETRY, FSTCH_BUFFER_TOO_SMALL, FSTCH_OUT_OF_MEMORY.
 */
int32_t fstch_core_make(uint32_t index_blocks, uint32_t extents, uint32_t extent_blocks, uint8_t *into, size_t into_length,
                        uint32_t *blocks);

/* Opens the store of these bytes, all that its file has and that lasts there. `file` is kept for fstch_core_file, and `has_barriers` for
 * fstch_core_barriers. With `is_manual` extents are won back by fstch_reclaim alone. The bytes are copied.
 *
 * FSTCH_IS_OPEN, FSTCH_FILE_SIZE, FSTCH_OUT_OF_MEMORY, FSTCH_BAD_SUPER, FSTCH_BAD_POINTER, FSTCH_BAD_SLOT, FSTCH_BAD_FRAME,
 * FSTCH_DUPLICATE_KEY.
 */
int32_t fstch_core_open(fstch_store *store, int32_t file, bool has_barriers, bool is_manual, const uint8_t *bytes, size_t length,
                        uint32_t *slot);

/* The number that the store was opened with, or -1 where it is closed. */
int32_t fstch_core_file(const fstch_store *store);

/* Whether the store was opened with barriers: its file is synced at each. False where it is closed. */
bool fstch_core_barriers(const fstch_store *store);

/* Brings all changes to the store's tape, as events in the order in which they have to be done to the file: writes, and behind those on
 * which others rest a barrier, at which the file has to be synced before anything behind it is written. The last event, if there is one,
 * is a barrier. Where there is no memory for them, each later sync is refused.
 *
 * FSTCH_NO_SYNC, FSTCH_OUT_OF_MEMORY.
 */
int32_t fstch_core_sync(fstch_store *store);

/* The event of this number on the tape, from 0 on: sets `is_barrier` to whether it is a barrier. Of a write it also sets `block` to where
 * it goes, and copies the block's bytes to the front of `into`; also with FSTCH_BUFFER_TOO_SMALL, where nothing is copied.
 *
 * FSTCH_ABSENT behind the last one, FSTCH_BUFFER_TOO_SMALL.
 */
int32_t fstch_core_write(const fstch_store *store, uint32_t number, bool *is_barrier, uint32_t *block, uint8_t *into, size_t into_length);

/* Empties the tape: all its events are done to the file, in their order, and the system lets its writes last. Where that isn't so, is_done
 * is false, and each later sync is refused with FSTCH_NO_SYNC. */
int32_t fstch_core_synced(fstch_store *store, bool is_done);

/* Begins anew, where more than 1,048,576 changes or 512 groups were made since the store was opened or last did, none of them is unsynced,
 * and each group is closed or was never engaged. Else it does nothing. */
int32_t fstch_core_renew(fstch_store *store);

/* Closes a store, and leaves its file open. */
int32_t fstch_core_close(fstch_store *store);

/* fstch_cache_admit, of so many bytes.
 *
 * FSTCH_NO_SUCH_BLOCK, FSTCH_IS_RESIDENT, FSTCH_BUFFER_TOO_SMALL where they are less than a block, FSTCH_OUT_OF_MEMORY.
 */
int32_t fstch_core_cache_admit(fstch_cache *cache, uint32_t block, const void *bytes, size_t length);

/* fstch_cache_read, of as many bytes as `into` has. */
int32_t fstch_core_cache_read(fstch_cache *cache, uint32_t block, size_t start, void *into, size_t length);

/* fstch_cache_without, of as many bytes as `into` has. */
int32_t fstch_core_cache_without(fstch_cache *cache, uint32_t block, const uint32_t *patches, size_t count, size_t start, void *into,
                                 size_t length, uint32_t *which);

#endif
