/* fstch: keys and values in one file that opens after every crash.
 *
 * This file is all that a caller has to read; the cache below the store has fstch_cache.h. It is C and C++. Link with libfstch.a or
 * libfstch.so, which run on Linux on x86-64.
 *
 *     fstch_store store = FSTCH_CLOSED;
 *     fstch_open(&store, path, NULL);
 *     fstch_put(&store, FSTCH_NO_WRITER, key, key_length, value, value_length);
 *     fstch_sync(&store);
 *     fstch_close(&store);
 *
 * What lasts. A put or a delete changes the store in memory; fstch_sync brings all changes to the file and lets them last there.
 * Whenever the program ends or the power is cut, the file opens again. It then has, of each key, what it had after the last sync or
 * after one of the later puts and deletes; where a write had reached the file, all that it depends on had too. What was answered
 * before a sync that answered FSTCH_DONE is there. One premise is left to the system and its disk: what was written to the file before
 * an fsync or fdatasync that succeeded is there, and of what was written since, each block of 4,096 bytes is old or new.
 *
 * Answers. Every call but fstch_is_open, fstch_error_text and fstch_version answers FSTCH_DONE or the number of why it was refused.
 * A refused call changes nothing, in the store or in what it was given, but where it says so. With FSTCH_OUT_OF_MEMORY each key has
 * the value that it had. Behind FSTCH_DISK and FSTCH_DEVICE_GAVE_UP errno has why the system refused a call; behind other answers it
 * says nothing. Each call lists its own answers, in the order in which they are tested. Each that takes an open store may also
 * answer FSTCH_NOT_OPEN, which goes before all others.
 *
 * What a caller owes, and nothing tests:
 * - A fstch_store begins as FSTCH_CLOSED, and these calls alone change it. It may be moved: its bytes are copied elsewhere, and those that
 *   were copied aren't passed any more.
 * - No pointer is null, but for `slot`. Where a length is 0 the pointer beside it is any other. A path ends with a 0 byte.
 * - A buffer has the length that is passed beside it. The store, the buffers and the out parameters of one call don't overlap.
 * - One thread at a time makes a call on a store, also where the store is const: any thread, with a lock between where there are several.
 *   Two threads may each have a store of their own at the same time.
 * - While a store is open nobody writes to its file, cuts it, removes it or gives its name to another file, but by these calls. The lock
 *   keeps those out who ask for it; a sync on a file that was removed is answered as on any other.
 * - No call is made from a signal handler. SIGXFSZ is ignored or blocked where a limit of file sizes may be met: else it ends the program.
 * - In a child that was forked while a store was open nothing is called on it but fstch_close, which leaves the parent its store and the
 *   file's lock. The child has the lock too, until it closes the store, ends or runs another program.
 * - malloc, realloc and free are those of one allocator. A call takes at most 16 KiB of the stack.
 */
#ifndef FSTCH_H
#define FSTCH_H

#include <stdbool.h>
#include <stddef.h>
#include <stdint.h>

/* The version of this interface: 10,000 for each major, 100 for each minor number, 1 for each patch. */
#define FSTCH_VERSION 400

#ifdef __cplusplus
extern "C" {
#endif

#ifdef __clang__
#pragma clang diagnostic push
#pragma clang diagnostic ignored "-Wpadded"
#endif
/* A store that is open, or none. It takes 16 bytes. */
typedef struct fstch_store {
    /* Whether it is open. To be read alone; fstch_is_open says the same. */
    bool is_open;
    /* What belongs to these calls. Null where it is closed. */
    void *at;
} fstch_store;
#ifdef __clang__
#pragma clang diagnostic pop
#endif

/* How a fstch_store begins, and what fstch_close leaves: all zeros. */
#ifdef __cplusplus
#define FSTCH_CLOSED {}
#else
#define FSTCH_CLOSED {false, NULL}
#endif

/* Writers are numbered from 0 to 6. A put or delete by one belongs to all groups that the writer has engaged. */
#define FSTCH_WRITERS 7u
/* A put or delete by no writer, which belongs to no group. */
#define FSTCH_NO_WRITER UINT32_MAX

/* The most bytes of a key, which has 1 at least. */
#define FSTCH_MAX_KEY 32u
/* The most bytes of a value of any store. One whose extents have 16 blocks has the lower limits of fstch_make. */
#define FSTCH_MAX_VALUE 131072u

/* What a call answers: 0, the number of a refusal of the store from 1 on, or below 0 one of this library. */
enum fstch_answer {
    FSTCH_DONE = 0,

    /* There was no memory. */
    FSTCH_OUT_OF_MEMORY = 1,
    /* The file can't be opened, made, read or written. */
    FSTCH_DISK = 4,
    /* The file's length isn't 1 to 4,096 whole blocks of 4,096 bytes, or not what its first block says. */
    FSTCH_FILE_SIZE = 5,
    /* 16,777,216 changes were made since the store was opened or began anew: close its groups and sync. */
    FSTCH_NUMBERS_SPENT = 17,
    /* 65,536 changes are in memory: a sync makes room. */
    FSTCH_TOO_MANY_LIVE = 18,
    /* No group has the number, or it was closed. */
    FSTCH_NO_SUCH_GROUP = 27,
    /* A group can't go after itself. */
    FSTCH_SAME_GROUP = 28,
    /* The group was engaged before, so it goes after no more groups. */
    FSTCH_STARTED = 29,
    /* A group goes after it, so it takes no more writers and goes after no more groups. */
    FSTCH_SEALED = 30,
    /* The writer has engaged the group already; or one has engaged a group that has to be free. */
    FSTCH_ENGAGED = 31,
    /* The writer hasn't engaged the group. */
    FSTCH_NOT_ENGAGED = 32,
    /* 1,024 groups were made since the store was opened or began anew, closed ones counted: close all and sync. */
    FSTCH_TOO_MANY_GROUPS = 33,
    /* The store has no extent of this number. */
    FSTCH_NO_SUCH_EXTENT = 34,
    /* The extent was won back as often as can be counted. */
    FSTCH_GENERATION_SPENT = 38,
    /* The key has no byte, or more than FSTCH_MAX_KEY. */
    FSTCH_KEY_LENGTH = 39,
    /* The value is longer than the store allows. */
    FSTCH_VALUE_LENGTH = 40,
    /* The key to be deleted has no value. */
    FSTCH_NO_KEY = 41,
    /* The key is new, and the store has as many keys as it can. */
    FSTCH_INDEX_FULL = 42,
    /* No extent has room: delete, and with FSTCH_MANUAL fstch_reclaim. */
    FSTCH_NO_SPACE = 43,
    /* Puts append to the extent, and values in it are live. */
    FSTCH_OPEN_EXTENT = 44,
    /* Nothing was appended to the extent since it was won back. */
    FSTCH_EMPTY_EXTENT = 45,
    /* No store is divided like this. */
    FSTCH_GEOMETRY = 46,
    /* The file holds no store: its first block, the block of the extents' pointers, or a slot of the index doesn't say what it must. */
    FSTCH_BAD_SUPER = 47,
    FSTCH_BAD_POINTER = 48,
    FSTCH_BAD_SLOT = 49,
    FSTCH_BAD_FRAME = 50,
    FSTCH_DUPLICATE_KEY = 51,
    /* The file refused the write of a block, each time that it was tried. */
    FSTCH_DEVICE_GAVE_UP = 57,

    /* The store isn't open. */
    FSTCH_NOT_OPEN = -1,
    /* The store is open already. */
    FSTCH_IS_OPEN = -2,
    /* What was asked for is longer than the buffer. */
    FSTCH_BUFFER_TOO_SMALL = -4,
    /* The key has no value, or there is no entry of this number. */
    FSTCH_ABSENT = -5,
    /* Another store, of this program or another, has the file open, and one of the two may change it. */
    FSTCH_IN_USE = -6,
    /* The system didn't let last what was written, and nothing was written behind that; or an earlier sync was refused. What the system
     * shows of the file then may be lost with the power. Close the store and open it again: the open reads what the disk has. */
    FSTCH_NO_SYNC = -7,
    /* The number of a writer is FSTCH_WRITERS or more. */
    FSTCH_BAD_WRITER = -8,
    /* The store was opened with FSTCH_READ_ONLY. */
    FSTCH_IS_READ_ONLY = -9
};

/* Files. */

/* Makes a file that holds an empty store. What has the name already is left alone, and a file that can't be finished is removed.
 * The file and the directory that it stands in are synced, so that the name lasts too; but where the system can't sync directories the
 * name may get lost with the power.
 *
 * The file is made under another name, `.fstch-` with two digits in the same directory, and linked to its own when it is whole. So a program
 * that is killed, or a cut of the power, leaves nothing of this name but a store; it may leave the other one, which may be removed. Where
 * the file system has no links the file is made where it is to be.
 *
 * The file is given room for all its blocks, so that no later sync needs more. That is the file system's word: one that puts each write
 * in a new place, or that can't set room aside but for zeros that are written, may still have none, and a sync then answers
 * FSTCH_DEVICE_GAVE_UP or FSTCH_NO_SYNC.
 *
 * The store has index_blocks (1 to 16) times 64 keys at most, and 2 to 254 extents, to which values are appended. With extent_blocks
 * 0 an extent has 16 blocks of 4,096 bytes, and a value at most 32,768 bytes. With extent_blocks 16 to 64 it has so many, and a value
 * at most as many bytes as an extent less 48, and never more than FSTCH_MAX_VALUE. The file has 4,096 blocks at most: 2, those of the
 * index, and those of the extents.
 *
 * FSTCH_GEOMETRY, FSTCH_OUT_OF_MEMORY, FSTCH_DISK.
 */
int32_t fstch_make(const char *path, uint32_t index_blocks, uint32_t extents, uint32_t extent_blocks);

/* Opens the store of a file into a closed fstch_store, and locks the file until it is closed or the program ends. The program fstch
 * takes such a lock too. The file is synced, so that what it shows lasts, and then read whole from the disk. An open store takes as much
 * memory as the file has bytes, and more for what is not synced; opening takes twice as much, and a sync as much again as it writes.
 *
 * `slot` is set with FSTCH_BAD_SLOT, FSTCH_BAD_FRAME and FSTCH_DUPLICATE_KEY alone: to the first slot of the index that is wrong. It may be
 * null.
 *
 * FSTCH_IS_OPEN, FSTCH_DISK, FSTCH_IN_USE, FSTCH_FILE_SIZE, FSTCH_OUT_OF_MEMORY, FSTCH_BAD_SUPER, FSTCH_BAD_POINTER, FSTCH_BAD_SLOT,
 * FSTCH_BAD_FRAME, FSTCH_DUPLICATE_KEY.
 */
int32_t fstch_open(fstch_store *store, const char *path, uint32_t *slot);

/* A flag of fstch_open_with: the syncs of the file inside fstch_sync are passed over, but for one behind all writes. Then the file opens
 * again whenever the program ends and the system goes on; if the power is cut, or the system stops, during a fstch_sync, it may not. */
#define FSTCH_NO_BARRIERS 1u

/* A flag of fstch_open_with: the file is opened to be read alone. So it may be one that the program has no right to write, or stand on a
 * read-only file system; and several stores, of one program or of several, may have it open with this flag at once, while none has it open
 * without: else the one that comes later is answered FSTCH_IN_USE.
 *
 * Puts, deletes, reclaims and groups are answered as by any store, and change this one in memory alone. fstch_sync answers
 * FSTCH_IS_READ_ONLY, and the store goes on.
 *
 * The open syncs the file as without the flag. Where the file system is read-only and has no sync (EINVAL), the file is taken as it is. Each
 * other refusal of the sync is answered FSTCH_DISK: so is that of a file system which became read-only behind a fault of its disk (EROFS),
 * and may show what the disk hasn't. */
#define FSTCH_READ_ONLY 2u

/* A flag of fstch_open_with: extents are won back by fstch_reclaim alone, which the program calls where a put is answered FSTCH_NO_SPACE.
 * Without it fstch_put does so by itself. */
#define FSTCH_MANUAL 4u

/* As fstch_open, with flags: 0, or any of FSTCH_NO_BARRIERS, FSTCH_READ_ONLY and FSTCH_MANUAL, or'ed. All other bits are 0. */
int32_t fstch_open_with(fstch_store *store, const char *path, uint32_t flags, uint32_t *slot);

/* Closes a store. It does not sync: what was not synced is lost. The store is FSTCH_CLOSED then, so that a second close is refused and
 * harms nothing. */
int32_t fstch_close(fstch_store *store);

/* Whether the store is open. */
bool fstch_is_open(const fstch_store *store);

/* Brings all changes to the file, and waits until the system lets them last. They are written in waves, and the file is
 * synced behind each wave: nothing is written before what it rests on lasts.
 *
 * Behind a sync the store begins anew where more than 1,048,576 changes or 512 groups were made since it was opened or last did, and each
 * group is closed or was never engaged. So it is never spent. Nobody sees that but by the numbers of groups, which begin at 0 again: that
 * of a closed group may come again, and there is no group any more that was never engaged.
 *
 * With FSTCH_DEVICE_GAVE_UP, FSTCH_OUT_OF_MEMORY and FSTCH_NO_SYNC some changes may have reached the file and others not, in their
 * order. From then on the store answers each sync with FSTCH_NO_SYNC: close it and open it again. The open reads what the disk has,
 * and not what the system still shows of a sync that failed.
 *
 * FSTCH_IS_READ_ONLY, FSTCH_OUT_OF_MEMORY, FSTCH_DEVICE_GAVE_UP, FSTCH_NO_SYNC.
 */
int32_t fstch_sync(fstch_store *store);

/* Values. */

/* Puts a value under a key, in place of the one that it had. `writer` is 0 to 6, or FSTCH_NO_WRITER.
 *
 * Where of 16 extents or more one at most is empty, or of 48 or more two, values of the one with the fewest live bytes may move elsewhere
 * behind the put, ahead of the need for its room: eight at most, while the extent that is written to has room for all of them. Of 48
 * extents or more they move where an eighth of that one is dead, and all at once, where the extent that is written to is soon full, or has
 * no room for them and two are empty. Where no extent has room for the put, that one is won back whole first, and where none
 * was empty a second one. So a put may take as long as a reclaim. Neither is so in a store that was opened with FSTCH_MANUAL. Where an
 * extent was empty one is so behind the put, unless there was no memory, and then FSTCH_NO_SPACE comes of a full store alone: where
 * fstch_stats tells more live bytes than (extents - 2) * (bytes of an extent - bytes of the value, its key and 16 more), or an extent
 * can't be won back any more. Behind a sync that was cut short none may be empty: then it may come of a store that isn't full, until
 * nothing is live any more in some extent. With FSTCH_NO_SPACE, FSTCH_NUMBERS_SPENT, FSTCH_TOO_MANY_LIVE and FSTCH_OUT_OF_MEMORY extents
 * may have been won back; each key has the value that it had.
 *
 * FSTCH_BAD_WRITER, FSTCH_KEY_LENGTH, FSTCH_VALUE_LENGTH, FSTCH_INDEX_FULL, FSTCH_NO_SPACE, FSTCH_NUMBERS_SPENT, FSTCH_TOO_MANY_LIVE,
 * FSTCH_OUT_OF_MEMORY.
 */
int32_t fstch_put(fstch_store *store, uint32_t writer, const void *key, size_t key_length, const void *value, size_t value_length);

/* Copies the value of a key to the front of `into`, and leaves what is behind it there. `length` becomes the value's length, also with
 * FSTCH_BUFFER_TOO_SMALL, where nothing is copied; with any other refusal it stays.
 *
 * FSTCH_KEY_LENGTH, FSTCH_ABSENT, FSTCH_OUT_OF_MEMORY, FSTCH_BUFFER_TOO_SMALL.
 */
int32_t fstch_get(const fstch_store *store, const void *key, size_t key_length, void *into, size_t into_length, size_t *length);

/* Takes a key and its value away. A put that needs the room wins it back, or fstch_reclaim. `writer` is as in fstch_put.
 *
 * FSTCH_BAD_WRITER, FSTCH_KEY_LENGTH, FSTCH_NO_KEY, FSTCH_NUMBERS_SPENT, FSTCH_TOO_MANY_LIVE, FSTCH_OUT_OF_MEMORY.
 */
int32_t fstch_delete(fstch_store *store, uint32_t writer, const void *key, size_t key_length);

/* Moves what is live in an extent elsewhere, and empties it. Extents are numbered from 0.
 *
 * FSTCH_NO_SUCH_EXTENT, FSTCH_EMPTY_EXTENT, FSTCH_OPEN_EXTENT, FSTCH_GENERATION_SPENT, FSTCH_NO_SPACE, FSTCH_NUMBERS_SPENT,
 * FSTCH_TOO_MANY_LIVE, FSTCH_OUT_OF_MEMORY.
 */
int32_t fstch_reclaim(fstch_store *store, uint32_t extent);

/* How many keys have a value, and how many extents there are.
 *
 * FSTCH_OUT_OF_MEMORY.
 */
int32_t fstch_check(const fstch_store *store, uint32_t *entries, uint32_t *extents);

/* The entry of this number, from 0 to one less than fstch_check counts: its key is copied to the front of `key`, `key_length` becomes
 * the key's length and `value_length` that of its value. A buffer of FSTCH_MAX_KEY bytes is large enough. With FSTCH_BUFFER_TOO_SMALL
 * the lengths are set and nothing is copied. The numbers stay while no new key is put and none is deleted.
 *
 * FSTCH_ABSENT, FSTCH_BUFFER_TOO_SMALL.
 */
int32_t fstch_entry(const fstch_store *store, uint32_t number, void *key, size_t key_room, size_t *key_length, size_t *value_length);

/* Keys in order: of two keys the first byte that differs decides, and else the shorter one comes first. Of the key that is found and its value
 * all is told as by fstch_entry. Keys may be put and deleted between two calls.
 *
 *     uint8_t from[FSTCH_MAX_KEY + 1], key[FSTCH_MAX_KEY];
 *     size_t from_length = 0, length, value_length;
 *     while (fstch_next(&store, from, from_length, key, sizeof key, &length, &value_length) == FSTCH_DONE) {
 *         memcpy(from, key, length);
 *         from[length] = 0;
 *         from_length = length + 1;
 *     }
 *
 * The least key from this one on, which may be itself. `from` may have any length: with 0 bytes it comes before all keys, and a key with a 0
 * byte more behind it comes right behind the key.
 *
 * FSTCH_ABSENT, FSTCH_BUFFER_TOO_SMALL.
 */
int32_t fstch_next(const fstch_store *store, const void *from, size_t from_length, void *key, size_t key_room, size_t *key_length,
                   size_t *value_length);

/* The greatest key that comes before this one, which may have any length.
 *
 * FSTCH_ABSENT, FSTCH_BUFFER_TOO_SMALL.
 */
int32_t fstch_previous(const fstch_store *store, const void *before, size_t before_length, void *key, size_t key_room, size_t *key_length,
                       size_t *value_length);

/* The greatest key of all.
 *
 * FSTCH_ABSENT, FSTCH_BUFFER_TOO_SMALL.
 */
int32_t fstch_last(const fstch_store *store, void *key, size_t key_room, size_t *key_length, size_t *value_length);

/* How full an extent is: sets `filled` to how many bytes were appended to it since it was made or won back, and `live` to how many of them
 * hold a key with the value that it has. A reclaim copies the live ones, and frees the others.
 *
 * FSTCH_NO_SUCH_EXTENT.
 */
int32_t fstch_extent(const fstch_store *store, uint32_t extent, uint32_t *live, uint32_t *filled);

/* Sets `changes` to how many pieces of changes haven't reached the file: 0 where a sync has nothing to do. A put has several pieces. */
int32_t fstch_unsynced(const fstch_store *store, uint32_t *changes);

/* What a store holds, and what its syncs have done. */
typedef struct fstch_statistics {
    /* How many keys have a value, and how many bytes keys and values take in the extents, with 16 more each. */
    uint32_t keys;
    uint32_t unsynced; /* as fstch_unsynced */
    uint64_t live_bytes;
    uint64_t file_bytes;
    uint32_t extents;
    /* How many extents have nothing in them. */
    uint32_t empty_extents;
    /* How many syncs were done since the store was opened, and how many waves they wrote. */
    uint64_t syncs;
    uint64_t waves;
} fstch_statistics;

/* Sets all of `statistics`. It takes no memory. */
int32_t fstch_stats(const fstch_store *store, fstch_statistics *statistics);

/* Groups: an order in which changes reach the file. It costs what its syncs of the file cost, which one fstch_sync makes for all groups
 * together: one for each wave, and changes that don't wait for one another share a wave. A group has all changes of the writers that have
 * engaged it. Whatever a crash leaves: where it has a change of a group, it has all changes of the groups that go before it. */

/* Makes a group, and sets `group` to its number. Numbers are counted from 0, and begin at 0 again where a sync lets the store begin anew.
 *
 * FSTCH_TOO_MANY_GROUPS, FSTCH_OUT_OF_MEMORY.
 */
int32_t fstch_group(fstch_store *store, uint32_t *group);

/* Lets the writer's changes belong to the group from now on. FSTCH_NO_WRITER engages none: it is refused with FSTCH_BAD_WRITER.
 *
 * FSTCH_BAD_WRITER, FSTCH_NO_SUCH_GROUP, FSTCH_SEALED, FSTCH_ENGAGED, FSTCH_OUT_OF_MEMORY.
 */
int32_t fstch_group_engage(fstch_store *store, uint32_t group, uint32_t writer);

/* Ends what fstch_group_engage began.
 *
 * FSTCH_BAD_WRITER, FSTCH_NO_SUCH_GROUP, FSTCH_NOT_ENGAGED.
 */
int32_t fstch_group_disengage(fstch_store *store, uint32_t group, uint32_t writer);

/* Lets the group `later` go to the file after the group `earlier`. `later` was not engaged yet, and no group goes after it; nobody has
 * `earlier` engaged, and nobody ever engages it again.
 *
 * FSTCH_NO_SUCH_GROUP, FSTCH_SAME_GROUP, FSTCH_SEALED, FSTCH_STARTED, FSTCH_ENGAGED, FSTCH_OUT_OF_MEMORY.
 */
int32_t fstch_group_depend(fstch_store *store, uint32_t later, uint32_t earlier);

/* Ends the use of the group's number. Its changes stay, in their order.
 *
 * FSTCH_NO_SUCH_GROUP, FSTCH_ENGAGED.
 */
int32_t fstch_group_close(fstch_store *store, uint32_t group);

/* Sets `changes` to how many pieces of the group's changes haven't reached the file. A put has several pieces.
 *
 * FSTCH_NO_SUCH_GROUP.
 */
int32_t fstch_group_pending(const fstch_store *store, uint32_t group, uint32_t *changes);

/* About the library. */

/* Copies the text of an answer to the front of `into`, as much as fits beside a 0 byte that ends it, and answers how many bytes the
 * whole text has without that 0. Nothing is copied where into_length is 0. A text has 63 bytes at most; a number that is no answer
 * has the text "unknown answer". */
size_t fstch_error_text(int32_t answer, char *into, size_t into_length);

/* The FSTCH_VERSION of the library that is linked. */
uint32_t fstch_version(void);

#ifdef __cplusplus
}
#endif

#endif
