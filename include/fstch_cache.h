/* fstch_cache: the patch cache itself, for a program that has its own layout of blocks and does its own reads and writes.
 *
 * It stands beside fstch.h, in the same library. What that says of answers, of refused calls, and of what a caller owes (the handle, null
 * pointers, buffers, threads, signal handlers, forked children, malloc and the stack) holds here too, of a fstch_cache and
 * fstch_cache_close in place of a fstch_store and fstch_close; but FSTCH_OUT_OF_MEMORY may go before other answers. It is C and C++.
 *
 *     fstch_cache cache = FSTCH_CLOSED;
 *     fstch_cache_open(&cache, blocks);
 *     fstch_cache_admit(&cache, 0, bytes_of_block_0);
 *     fstch_cache_admit(&cache, 1, bytes_of_block_1);
 *     fstch_cache_patch(&cache, FSTCH_NO_WRITER, 0, 0, "data", 4, none, 0, 0, &data);
 *     fstch_cache_patch(&cache, FSTCH_NO_WRITER, 1, 0, "name", 4, &data, 1, 0, &name);   reaches the disk after the data
 *     do {
 *         count = 0;
 *         while (fstch_cache_next(&cache, &block) == FSTCH_DONE
 *                && fstch_cache_send(&cache, block, &sent[count].number, image, sizeof image) == FSTCH_DONE) {
 *             sent[count++].block = block;
 *             write_block(block, image);
 *         }
 *         sync_the_disk();   once for each wave, and before any of it is completed
 *         for (i = 0; i < count; i++) {
 *             fstch_cache_complete(&cache, sent[i].block, sent[i].number);
 *         }
 *     } while (count > 0);
 *     fstch_cache_close(&cache);
 *
 * What it is. A disk is so many blocks of 4,096 bytes. The cache has those that it was handed (fstch_cache_admit) until they are let go
 * (fstch_cache_evict). A patch puts bytes into one block, and names patches that have to be on the disk before it. The program asks
 * which block can be written, is given its image, writes that where and how it likes, and says when it is done. A block can be written
 * while some of its patches still wait for others: these are taken back in the image, and stay in the cache.
 *
 * What is promised. Whenever the program ends or the power is cut, the disk has what it had when the cache was opened, with some of the
 * patches laid on it, in each block in the order of their making; and with each patch that it has all that this depends on. It has all
 * that are durable. The patches of one class, which fstch_cache_merge makes, are there together or not at all. This is so as long as the
 * program keeps to what follows.
 *
 * What a caller owes, beside what fstch.h says, and nothing tests:
 * - fstch_cache_complete is called when no later write can reach the disk before this one's image, and none of the writes of this image is
 *   still to reach it. That is a premise: the cache does no I/O, and can't know. Where a disk or a system may put off writes or change their
 *   order that is behind an fsync, an fdatasync or a write with O_DSYNC that succeeded. One sync does for all images that were written
 *   before it.
 * - A write of a block is done whole or not at all, whenever the power is cut.
 * - The bytes of a block that is admitted are what the disk has of it, and lasts there. Nobody else writes to a block.
 * - An image goes to its own block, byte for byte. Where the write was refused, or isn't known to have been done, the same image is
 *   written again (fstch_cache_image), or the cache is closed. What the disk has then is what a crash may leave. Behind a sync that was
 *   refused the cache is closed, and the blocks are read anew: what the system shows of them then may be lost with the power.
 * - The numbers of patches, of writes and of groups are counted from 0 again after fstch_cache_renew. A list `after` that was kept from
 *   before it then names other patches, and so does a number of a write that was kept: who renews lets all of them go.
 * - The bits of `flags` that no flag has are 0.
 */
#ifndef FSTCH_CACHE_H
#define FSTCH_CACHE_H

#include "fstch.h"

#ifdef __cplusplus
extern "C" {
#endif

#ifdef __clang__
#pragma clang diagnostic push
#pragma clang diagnostic ignored "-Wpadded"
#endif
/* A cache that is open, or none, with its groups and the writes that are under way. It takes 16 bytes, and begins as FSTCH_CLOSED. */
typedef struct fstch_cache {
    /* Whether it is open. To be read alone. */
    bool is_open;
    /* What belongs to these calls. Null where it is closed. */
    void *at;
} fstch_cache;
#ifdef __clang__
#pragma clang diagnostic pop
#endif

/* The bytes of a block. */
#define FSTCH_BLOCK 4096u
/* The most blocks of a cache: 64 GiB. */
#define FSTCH_MAX_BLOCKS 16777216u
/* The most patches that are in memory or in flight. */
#define FSTCH_MAX_LIVE 65536u

/* Where a patch is: it waits in memory, its write is under way, or the disk has it. */
#define FSTCH_MARK_MEMORY 0u
#define FSTCH_MARK_FLIGHT 1u
#define FSTCH_MARK_DURABLE 2u

/* A flag of fstch_cache_patch: the cache may forget the bytes that the patch overwrites, where it never has to take the patch back. That is
 * where all that it depends on is durable, or hard and of its own block. Such a patch is hard: it isn't merged, and fstch_cache_without
 * can't leave it out. */
#define FSTCH_MAY_DROP 1u

/* The answers that fstch.h lacks. Where a call says of one that it is told, `which` is set to the number of a patch; with any other answer
 * `which` stays. */
enum fstch_cache_answer {
    /* The cache has no block of this number. */
    FSTCH_NO_SUCH_BLOCK = 2,
    /* No patch has the number; or, of fstch_cache_without, one that isn't durable, of another block. */
    FSTCH_UNKNOWN = 6,
    /* The patch is on the disk, so it can't be left out. */
    FSTCH_DURABLE = 7,
    /* The patch's write is under way, so it can't be left out. */
    FSTCH_IN_FLIGHT = 8,
    /* The patch is hard. */
    FSTCH_HARD = 9,
    /* The class of the patch is left out already. */
    FSTCH_ALREADY_TAKEN = 10,
    /* Another class of the block, told by its name, depends on the patch's, and isn't left out. */
    FSTCH_DEPENDENT_APPLIED = 11,
    /* The patch is to have no bytes. */
    FSTCH_EMPTY_PATCH = 14,
    /* The bytes pass the end of the block. */
    FSTCH_OUT_OF_BLOCK = 15,
    /* The patch names a number that no patch has. */
    FSTCH_UNKNOWN_DEPENDENCY = 16,
    /* The patch isn't in memory any more. */
    FSTCH_NOT_IN_MEMORY = 19,
    /* The two patches are of one class already. */
    FSTCH_SAME = 20,
    /* The two patches are of two blocks. */
    FSTCH_OTHER_BLOCK = 21,
    /* The bytes of the two classes neither overlap nor touch. */
    FSTCH_APART = 22,
    /* A third class, told by its name, goes after one of the two and before the other. */
    FSTCH_WOULD_CYCLE = 23,
    /* A write of the block is under way. */
    FSTCH_ALREADY_IN_FLIGHT = 24,
    /* Nothing may go to the disk now: of the block, or of any. */
    FSTCH_NOTHING_READY = 25,
    /* No such write is under way: it was completed, or never begun. */
    FSTCH_STRANGER = 26,
    /* A patch is in memory or in flight, or a group is in use. */
    FSTCH_LIVE = 62,
    /* The block isn't resident: it wasn't admitted, or it was let go. */
    FSTCH_NOT_RESIDENT = 63,
    /* The block is resident already. */
    FSTCH_IS_RESIDENT = -20
};

/* Caches and blocks. */

/* Opens a cache of so many blocks, of which none is resident, into a closed fstch_cache. FSTCH_FILE_SIZE: there are to be none, or more
 * than FSTCH_MAX_BLOCKS.
 *
 * FSTCH_IS_OPEN, FSTCH_FILE_SIZE, FSTCH_OUT_OF_MEMORY.
 */
int32_t fstch_cache_open(fstch_cache *cache, uint32_t blocks);

/* Makes a block resident: `bytes` are its FSTCH_BLOCK bytes, as the disk has them now. They are copied. Blocks are numbered from 0.
 *
 * FSTCH_NO_SUCH_BLOCK, FSTCH_IS_RESIDENT, FSTCH_OUT_OF_MEMORY.
 */
int32_t fstch_cache_admit(fstch_cache *cache, uint32_t block, const void *bytes);

/* Lets a block go, and its memory, of which no patch is in memory or in flight. The disk has what the cache had of it, so it can be read
 * from there and admitted again.
 *
 * FSTCH_NO_SUCH_BLOCK, FSTCH_NOT_RESIDENT, FSTCH_LIVE.
 */
int32_t fstch_cache_evict(fstch_cache *cache, uint32_t block);

/* Begins anew, where no patch is in memory or in flight and each group that a writer has ever engaged is closed. The next patch, the
 * next write and the next group have the number 0; there are no others, and numbers from before are those of later ones. Blocks stay as
 * they are. So a cache is never spent.
 *
 * FSTCH_LIVE.
 */
int32_t fstch_cache_renew(fstch_cache *cache);

/* Closes a cache, whatever is in memory or in flight: the disk has what a crash may leave. The cache is FSTCH_CLOSED then, so that a
 * second close is refused and harms nothing. */
int32_t fstch_cache_close(fstch_cache *cache);

/* Sets `blocks` to how many blocks there are, `made` to how many patches were made since the cache was opened or renewed, `live` to how
 * many of them are in memory or in flight, and `durable_below` to a number below which all of them are durable. */
int32_t fstch_cache_counts(fstch_cache *cache, uint32_t *blocks, uint32_t *made, uint32_t *live, uint32_t *durable_below);

/* Patches. */

/* Makes a patch: it puts 1 to FSTCH_BLOCK bytes into a block, from `start` on. They are copied. `patch` is set to its number, the next
 * one: 0, 1, 2 and so on; there are 16,777,216 until the cache is renewed.
 *
 * It depends on the patches that `after` names, by their numbers, in any order, one of them also more than once; on each earlier patch of
 * its block that shares a byte with it; and, of a writer from 0 to 6, on all patches of all groups that go before those which the writer
 * has engaged. It joins those that the writer has engaged. By FSTCH_NO_WRITER it joins none. `flags` is 0 or FSTCH_MAY_DROP.
 *
 * With FSTCH_NUMBERS_SPENT the cache has to be renewed, and with FSTCH_TOO_MANY_LIVE, where FSTCH_MAX_LIVE patches are in memory or in
 * flight, writes have to be completed before.
 *
 * FSTCH_BAD_WRITER, FSTCH_NO_SUCH_BLOCK, FSTCH_NOT_RESIDENT, FSTCH_EMPTY_PATCH, FSTCH_OUT_OF_BLOCK, FSTCH_UNKNOWN_DEPENDENCY,
 * FSTCH_NUMBERS_SPENT, FSTCH_TOO_MANY_LIVE, FSTCH_OUT_OF_MEMORY.
 */
int32_t fstch_cache_patch(fstch_cache *cache, uint32_t writer, uint32_t block, size_t start, const void *bytes, size_t length,
                          const uint32_t *after, size_t after_count, uint32_t flags, uint32_t *patch);

/* Makes one class of the classes of two patches of a block. Its patches go to the disk together from then on. `name` is set to the
 * class's name, its least number. A patch that is never merged is a class of its own.
 *
 * FSTCH_UNKNOWN, FSTCH_NOT_IN_MEMORY (told), FSTCH_SAME, FSTCH_OTHER_BLOCK, FSTCH_HARD (told), FSTCH_APART, FSTCH_WOULD_CYCLE (told),
 * FSTCH_OUT_OF_MEMORY. Where one may be of either patch, that of `a` goes first.
 */
int32_t fstch_cache_merge(fstch_cache *cache, uint32_t a, uint32_t b, uint32_t *name, uint32_t *which);

/* Sets `mark` to where a patch is: FSTCH_MARK_MEMORY, FSTCH_MARK_FLIGHT or FSTCH_MARK_DURABLE.
 *
 * FSTCH_UNKNOWN.
 */
int32_t fstch_cache_mark(fstch_cache *cache, uint32_t patch, uint32_t *mark);

/* Bytes. */

/* Copies so many bytes of a block, with all its patches, from `start` on. A read of no bytes tells whether the block is resident.
 *
 * FSTCH_NO_SUCH_BLOCK, FSTCH_NOT_RESIDENT, FSTCH_OUT_OF_BLOCK.
 */
int32_t fstch_cache_read(fstch_cache *cache, uint32_t block, size_t start, size_t length, void *into);

/* As fstch_cache_read, but without the classes of these patches, which are left out one after another: each behind those of its block
 * that depend on it. The cache is as before when the call returns.
 *
 * FSTCH_OUT_OF_MEMORY, FSTCH_NO_SUCH_BLOCK, FSTCH_NOT_RESIDENT, FSTCH_OUT_OF_BLOCK; and of the first patch in the list that can't be
 * left out FSTCH_UNKNOWN, FSTCH_DURABLE, FSTCH_IN_FLIGHT, FSTCH_HARD, FSTCH_ALREADY_TAKEN, FSTCH_DEPENDENT_APPLIED (told).
 */
int32_t fstch_cache_without(fstch_cache *cache, uint32_t block, const uint32_t *patches, size_t count, size_t start, size_t length,
                            void *into, uint32_t *which);

/* Writes. A write that was begun is under way until it is completed, and has two numbers: its block, and how many writes had begun before
 * it. They are plain numbers: the write and its image are the cache's. To copy or to lose them does no harm, nor to ask for what there
 * isn't; but who completes a write claims that the disk has it. */

/* Sets `block` to the least block of which a write can begin now.
 *
 * FSTCH_NOTHING_READY.
 */
int32_t fstch_cache_next(fstch_cache *cache, uint32_t *block);

/* Begins a write of a block: of all its classes that may go to the disk now, which is the largest such set. Their image, FSTCH_BLOCK
 * bytes, is copied to the front of `image`: it has them, what is durable, and nothing else. `number` is set to the write's number, which
 * no other has until the cache is renewed.
 *
 * FSTCH_BUFFER_TOO_SMALL, FSTCH_NO_SUCH_BLOCK, FSTCH_NOT_RESIDENT, FSTCH_ALREADY_IN_FLIGHT, FSTCH_NOTHING_READY, FSTCH_OUT_OF_MEMORY.
 */
int32_t fstch_cache_send(fstch_cache *cache, uint32_t block, uint32_t *number, void *image, size_t image_length);

/* Copies the image of a write that is under way once more, byte for byte, to be written again.
 *
 * FSTCH_STRANGER, FSTCH_BUFFER_TOO_SMALL.
 */
int32_t fstch_cache_image(fstch_cache *cache, uint32_t block, uint32_t number, void *image, size_t image_length);

/* Copies the numbers of the patches that a write makes durable, rising, to the front of `patches`, which has `room` of them. `count` is
 * set to how many there are, also with FSTCH_BUFFER_TOO_SMALL, where nothing is copied.
 *
 * FSTCH_STRANGER, FSTCH_BUFFER_TOO_SMALL.
 */
int32_t fstch_cache_flight(fstch_cache *cache, uint32_t block, uint32_t number, uint32_t *patches, size_t room, size_t *count);

/* Ends a write that the disk has: its patches are durable. It takes no memory. What is owed before it stands at the head of this file.
 *
 * FSTCH_STRANGER.
 */
int32_t fstch_cache_complete(fstch_cache *cache, uint32_t block, uint32_t number);

/* Groups: an order in which patches reach the disk, as in fstch.h. A group has all patches of the writers that have engaged it. Whatever a
 * crash leaves: where the disk has a patch of a group, it has all patches of the groups that go before it. They are the cache's own, and
 * there are 1,024 of them until it is renewed, closed ones counted. */

/* Makes a group, and sets `group` to its number: 0, 1, 2 and so on.
 *
 * FSTCH_TOO_MANY_GROUPS, FSTCH_OUT_OF_MEMORY.
 */
int32_t fstch_cache_group(fstch_cache *cache, uint32_t *group);

/* Lets the writer's patches belong to the group from now on. FSTCH_NO_WRITER engages none: it is refused with FSTCH_BAD_WRITER.
 *
 * FSTCH_BAD_WRITER, FSTCH_NO_SUCH_GROUP, FSTCH_SEALED, FSTCH_ENGAGED, FSTCH_OUT_OF_MEMORY.
 */
int32_t fstch_cache_group_engage(fstch_cache *cache, uint32_t group, uint32_t writer);

/* Ends what fstch_cache_group_engage began.
 *
 * FSTCH_BAD_WRITER, FSTCH_NO_SUCH_GROUP, FSTCH_NOT_ENGAGED.
 */
int32_t fstch_cache_group_disengage(fstch_cache *cache, uint32_t group, uint32_t writer);

/* Lets the group `later` go to the disk after the group `earlier`. `later` was not engaged yet, and no group goes after it; nobody has
 * `earlier` engaged, and nobody ever engages it again.
 *
 * FSTCH_NO_SUCH_GROUP, FSTCH_SAME_GROUP, FSTCH_SEALED, FSTCH_STARTED, FSTCH_ENGAGED, FSTCH_OUT_OF_MEMORY.
 */
int32_t fstch_cache_group_depend(fstch_cache *cache, uint32_t later, uint32_t earlier);

/* Ends the use of the group's number. Its patches stay, in their order.
 *
 * FSTCH_NO_SUCH_GROUP, FSTCH_ENGAGED.
 */
int32_t fstch_cache_group_close(fstch_cache *cache, uint32_t group);

/* Sets `changes` to how many patches of the group aren't durable: 0 where the disk has all of it.
 *
 * FSTCH_NO_SUCH_GROUP.
 */
int32_t fstch_cache_group_pending(fstch_cache *cache, uint32_t group, uint32_t *changes);

#ifdef __cplusplus
}
#endif

#endif
