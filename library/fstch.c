/* The calls of fstch.h that make, open, sync and close a file: what they ask of the system is here, all else in the proved calls of
 * core.h. There are no globals, and nothing is kept but in the store. */
#define _DEFAULT_SOURCE /* for flock and posix_fallocate */
#include "core.h"

#include <errno.h>
#include <fcntl.h>
#include <stdlib.h>
#include <string.h>
#include <sys/file.h>
#include <sys/stat.h>
#include <sys/statvfs.h>
#include <unistd.h>

enum {
    BLOCK = 4096,
    MOST_BYTES = 4096 * BLOCK, /* of a file */
    WRITE_TRIES = 8,           /* of a block */
    LOWEST_FILE = 3,           /* behind the standard streams */
    MODE = 0666,               /* of a new file, less what the umask takes away */
    NAMES = 64                 /* that are tried for a file that isn't whole yet */
};

/* How a file is called in its directory until it is whole, with two digits behind. */
static const char BESIDE[] = "/.fstch-";

/* Whether a call of the system has to be made again, since a signal ended it. */
static bool is_interrupted(long answer) {
    return answer < 0 && errno == EINTR;
}

static int open_file(const char *path, int flags) {
    int file;
    do {
        file = open(path, flags | O_CLOEXEC | O_NOCTTY, MODE);
    } while (is_interrupted(file));
    return file;
}

/* Closes a file, and leaves errno as it is: it says why a call failed before. */
static void close_file(int file) {
    int kept = errno;
    close(file);
    errno = kept;
}

/* The same file, by a number above those of the standard streams: a program that has closed one of these may write to it all the same. */
static int above_streams(int file) {
    if (file < 0 || file >= LOWEST_FILE) {
        return file;
    }
    int above = fcntl(file, F_DUPFD_CLOEXEC, LOWEST_FILE);
    close_file(file);
    return above;
}

/* Takes this lock of the file: LOCK_EX, which one store has alone, or LOCK_SH, which several may have. */
static int32_t lock_file(int file, int lock) {
    int answer;
    do {
        answer = flock(file, lock | LOCK_NB);
    } while (is_interrupted(answer));
    if (answer == 0) {
        return FSTCH_DONE;
    }
    return errno == EWOULDBLOCK ? FSTCH_IN_USE : FSTCH_DISK;
}

/* Lets all last: a file with its length, or the names in a directory. */
static bool sync_all(int file) {
    int answer;
    do {
        answer = fsync(file);
    } while (is_interrupted(answer));
    return answer == 0;
}

/* Lets what was written to a file of a fixed length last. */
static bool sync_data(int file) {
    int answer;
    do {
        answer = fdatasync(file);
    } while (is_interrupted(answer));
    return answer == 0;
}

/* Whether a call of the system took no bytes, which is a fault of the disk where it says no other. */
static bool is_stuck(ssize_t count) {
    if (count == 0) {
        errno = EIO;
    }
    return count <= 0;
}

/* Reads so many bytes from the file's beginning. It fails also where there are fewer. */
static bool read_bytes(int file, uint8_t *into, size_t length) {
    size_t done = 0;
    while (done < length) {
        ssize_t count = pread(file, into + done, length - done, (off_t)done);
        if (is_interrupted(count)) {
            continue;
        }
        if (is_stuck(count)) {
            return false;
        }
        done += (size_t)count;
    }
    return true;
}

static bool write_once(int file, uint32_t block, const uint8_t *bytes) {
    size_t done = 0;
    while (done < BLOCK) {
        ssize_t count = pwrite(file, bytes + done, BLOCK - done, (off_t)block * BLOCK + (off_t)done);
        if (is_interrupted(count)) {
            continue;
        }
        if (is_stuck(count)) {
            return false;
        }
        done += (size_t)count;
    }
    return true;
}

static bool write_block(int file, uint32_t block, const uint8_t *bytes) {
    for (int tries = 0; tries < WRITE_TRIES; tries++) {
        if (write_once(file, block, bytes)) {
            return true;
        }
    }
    return false;
}

static bool write_zeros(int file, uint32_t blocks) {
    static const uint8_t zeros[BLOCK];
    for (uint32_t block = 0; block < blocks; block++) {
        if (!write_block(file, block, zeros)) {
            return false;
        }
    }
    return true;
}

/* Gives a new file its length, and room for all its blocks. */
static bool give_room(int file, uint32_t blocks) {
    int error;
    do {
        error = posix_fallocate(file, 0, (off_t)blocks * BLOCK);
    } while (error == EINTR);
    if (error == EINVAL || error == EOPNOTSUPP || error == ENOSYS) {
        return write_zeros(file, blocks); /* the system can't, so that writing takes the room */
    }
    errno = error;
    return error == 0;
}

/* Gives a new file its room and its first block, lets it last, and closes it. */
static bool finish_file(int file, uint32_t blocks, const uint8_t *first) {
    if (file < 0) {
        return false;
    }
    bool is_finished = give_room(file, blocks) && write_block(file, 0, first) && sync_all(file);
    close_file(file);
    return is_finished;
}

/* Takes a name away, and leaves errno as it is. */
static void remove_name(const char *path) {
    int kept = errno;
    unlink(path);
    errno = kept;
}

/* Frees what was allocated, and leaves errno as it is. */
static void free_bytes(void *bytes) {
    int kept = errno;
    free(bytes);
    errno = kept;
}

/* The directory of a path, with room behind it for a name in it; to be freed. NULL where there is no memory. */
static char *directory_of(const char *path) {
    const char *slash = strrchr(path, '/');
    const char *from = slash == NULL ? "." : path;
    size_t length = slash == NULL || slash == path ? 1 : (size_t)(slash - path);
    char *directory = malloc(length + sizeof BESIDE + 2);
    if (directory != NULL) {
        memcpy(directory, from, length);
        directory[length] = 0;
    }
    return directory;
}

/* Lets the names in a directory last. A system that can't sync a directory says that the call is invalid. */
static bool sync_directory(const char *directory) {
    int file;
    do {
        file = open(directory, O_RDONLY | O_DIRECTORY | O_CLOEXEC | O_NOCTTY);
    } while (is_interrupted(file));
    file = above_streams(file);
    if (file < 0) {
        return false;
    }
    bool is_synced = sync_all(file) || errno == EINVAL;
    close_file(file);
    return is_synced;
}

/* Whether there is something of this name; errno says so then. */
static bool is_taken(const char *path) {
    struct stat found;
    if (lstat(path, &found) != 0) {
        return false;
    }
    errno = EEXIST;
    return true;
}

static bool make_in_place(const char *path, uint32_t blocks, const uint8_t *first) {
    int file = open_file(path, O_RDWR | O_CREAT | O_EXCL);
    if (file < 0) {
        return false;
    }
    if (!finish_file(above_streams(file), blocks, first)) {
        remove_name(path);
        return false;
    }
    return true;
}

/* Opens a new file by a name that nothing has, and puts the name behind the directory. */
static int open_beside(char *directory) {
    char *name = directory + strlen(directory);
    int file = -1;
    for (int number = 0; number < NAMES; number++) {
        memcpy(name, BESIDE, sizeof BESIDE);
        name[sizeof BESIDE - 1] = (char)('0' + number / 10);
        name[sizeof BESIDE] = (char)('0' + number % 10);
        name[sizeof BESIDE + 1] = 0;
        file = open_file(directory, O_RDWR | O_CREAT | O_EXCL);
        if (file >= 0 || errno != EEXIST) {
            break;
        }
    }
    return file;
}

/* Makes a file under another name, and links it to its own when it is whole and lasts, so that a program that is killed leaves nothing of
 * this name but a store. Where the file system has no links, it is made where it is to be. */
static bool make_whole(const char *path, char *directory, uint32_t blocks, const uint8_t *first) {
    size_t length = strlen(directory);
    int file = open_beside(directory);
    if (file < 0) {
        return false;
    }
    bool is_whole = finish_file(above_streams(file), blocks, first);
    bool is_linked = is_whole && link(directory, path) == 0;
    remove_name(directory);
    directory[length] = 0;
    return is_linked || (is_whole && make_in_place(path, blocks, first));
}

static int32_t make_file(const char *path, char *directory, uint32_t blocks, const uint8_t *first) {
    if (is_taken(path) || !make_whole(path, directory, blocks, first)) {
        return FSTCH_DISK;
    }
    if (!sync_directory(directory)) {
        remove_name(path);
        return FSTCH_DISK;
    }
    return FSTCH_DONE;
}

int32_t fstch_make(const char *path, uint32_t index_blocks, uint32_t extents, uint32_t extent_blocks) {
    uint8_t first[BLOCK];
    uint32_t blocks = 0;
    int32_t answer = fstch_core_make(index_blocks, extents, extent_blocks, first, sizeof first, &blocks);
    if (answer != FSTCH_DONE) {
        return answer;
    }
    char *directory = directory_of(path);
    if (directory == NULL) {
        return FSTCH_OUT_OF_MEMORY;
    }
    answer = make_file(path, directory, blocks, first);
    free_bytes(directory);
    return answer;
}

/* Opens a file to be read alone. A pipe isn't waited for, and a directory is refused, as it is where it is to be written to. */
static int open_to_read(const char *path) {
    struct stat found;
    int file = open_file(path, O_RDONLY | O_NONBLOCK);
    if (file >= 0 && fstat(file, &found) == 0 && S_ISDIR(found.st_mode)) {
        close(file);
        errno = EISDIR;
        return -1;
    }
    return file;
}

/* Whether a file was opened to be read alone. */
static bool is_read_only(int file) {
    int flags = file < 0 ? -1 : fcntl(file, F_GETFL);
    return flags >= 0 && (flags & O_ACCMODE) == O_RDONLY;
}

/* Whether a sync that was refused had nothing to do: the file system is read-only, and has no syncs. One that has some, and refuses this one
 * as it is read-only now, may show what it couldn't write. */
static bool is_synced_as_it_is(int file) {
    struct statvfs found;
    return errno == EINVAL && fstatvfs(file, &found) == 0 && (found.f_flag & ST_RDONLY) != 0;
}

/* Lets all that the file shows last, and has it read from the disk: behind a sync that failed the system may show what isn't there. */
static bool settle_file(int file) {
    if (!sync_all(file) && !is_synced_as_it_is(file)) {
        return false;
    }
    posix_fadvise(file, 0, 0, POSIX_FADV_DONTNEED); /* (a system that keeps no pages has none to let go) */
    return true;
}

/* Opens the store of all that the file has. A length that no store has isn't read. */
static int32_t open_store(fstch_store *store, int file, uint32_t flags, uint32_t *slot) {
    off_t length = lseek(file, 0, SEEK_END);
    if (length < 0) {
        return FSTCH_DISK;
    }
    if (length == 0 || length > MOST_BYTES) {
        return FSTCH_FILE_SIZE;
    }
    uint8_t *bytes = malloc((size_t)length);
    if (bytes == NULL) {
        return FSTCH_OUT_OF_MEMORY;
    }
    int32_t answer = FSTCH_DISK;
    if (settle_file(file) && read_bytes(file, bytes, (size_t)length)) {
        bool has_barriers = (flags & FSTCH_NO_BARRIERS) == 0;
        bool is_manual = (flags & FSTCH_MANUAL) != 0;
        answer = fstch_core_open(store, file, has_barriers, is_manual, bytes, (size_t)length, slot);
    }
    free_bytes(bytes);
    return answer;
}

int32_t fstch_open_with(fstch_store *store, const char *path, uint32_t flags, uint32_t *slot) {
    uint32_t unasked = 0;
    slot = slot == NULL ? &unasked : slot;
    if (fstch_is_open(store)) {
        return FSTCH_IS_OPEN;
    }
    bool is_to_be_read = (flags & FSTCH_READ_ONLY) != 0;
    int file = above_streams(is_to_be_read ? open_to_read(path) : open_file(path, O_RDWR));
    if (file < 0) {
        return FSTCH_DISK;
    }
    int32_t answer = lock_file(file, is_to_be_read ? LOCK_SH : LOCK_EX);
    if (answer == FSTCH_DONE) {
        answer = open_store(store, file, flags, slot);
    }
    if (answer != FSTCH_DONE) {
        close_file(file);
    }
    return answer;
}

int32_t fstch_open(fstch_store *store, const char *path, uint32_t *slot) {
    return fstch_open_with(store, path, 0, slot);
}

/* Brings the events of the store's tape to the file, in their order. With barriers nothing behind one is written before all in front of it
 * lasts; without, all is synced in the end alone. */
static int32_t write_tape(fstch_store *store, int file, bool has_barriers) {
    uint8_t bytes[BLOCK];
    uint32_t block = 0, number = 0;
    bool is_barrier = false, is_loose = false;
    int32_t answer;
    while ((answer = fstch_core_write(store, number, &is_barrier, &block, bytes, sizeof bytes)) == FSTCH_DONE) {
        if (!is_barrier) {
            if (!write_block(file, block, bytes)) {
                return FSTCH_DEVICE_GAVE_UP;
            }
            is_loose = true;
        } else if (has_barriers) {
            if (!sync_data(file)) {
                return FSTCH_NO_SYNC;
            }
            is_loose = false;
        }
        number++;
    }
    if (answer != FSTCH_ABSENT) {
        return answer;
    }
    return !is_loose || sync_data(file) ? FSTCH_DONE : FSTCH_NO_SYNC;
}

int32_t fstch_sync(fstch_store *store) {
    int file = fstch_core_file(store);
    if (is_read_only(file)) {
        return FSTCH_IS_READ_ONLY;
    }
    int32_t answer = fstch_core_sync(store);
    if (answer == FSTCH_DONE) {
        answer = write_tape(store, file, fstch_core_barriers(store));
    }
    int kept = errno; /* (the core asks for memory) */
    fstch_core_synced(store, answer == FSTCH_DONE);
    if (answer == FSTCH_DONE) {
        fstch_core_renew(store);
    }
    errno = kept;
    return answer;
}

/* The lock goes with the file. */
int32_t fstch_close(fstch_store *store) {
    int file = fstch_core_file(store);
    int32_t answer = fstch_core_close(store);
    if (file >= 0) {
        close(file);
    }
    return answer;
}
