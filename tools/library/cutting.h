/* A file's disk, whose writes since its last sync are kept aside, so that a program may be killed among them, or the power be cut: a cut leaves any
 * of those writes. Link with -Wl,--wrap=pwrite,--wrap=fdatasync. What is kept outlives a child that is killed. */
#ifndef CUTTING_H
#define CUTTING_H

#include "wanting.h"

#include <fcntl.h>
#include <signal.h>
#include <sys/mman.h>
#include <unistd.h>

enum { CUT_BLOCK = 4096, MOST_WRITES = 1 << 14 };

/* A write that no sync has let last yet. */
typedef struct {
    off_t place;
    uint8_t bytes[CUT_BLOCK];
} loose_write;

typedef struct {
    /* How many more writes and syncs there are until the program is killed; below 0 it isn't. */
    long changes_left;
    uint32_t loose;
    loose_write writes[MOST_WRITES];
    /* What lasts. */
    size_t length;
    uint8_t lasting[];
} cut_disk;

static cut_disk *disk;

ssize_t __real_pwrite(int file, const void *from, size_t length, off_t place);
int __real_fdatasync(int file);
ssize_t __wrap_pwrite(int file, const void *from, size_t length, off_t place);
int __wrap_fdatasync(int file);

/* Memory that a child has in common with its parent. */
static inline void *common(size_t length) {
    void *at = mmap(NULL, length, PROT_READ | PROT_WRITE, MAP_SHARED | MAP_ANONYMOUS, -1, 0);
    MUST(at != MAP_FAILED);
    return at;
}

static inline void change_disk(void) {
    if (disk != NULL && disk->changes_left == 0) {
        raise(SIGKILL);
    }
    if (disk != NULL && disk->changes_left > 0) {
        disk->changes_left--;
    }
}

ssize_t __wrap_pwrite(int file, const void *from, size_t length, off_t place) {
    change_disk();
    if (disk != NULL) {
        MUST(length == CUT_BLOCK && disk->loose < MOST_WRITES);
        disk->writes[disk->loose].place = place;
        memcpy(disk->writes[disk->loose].bytes, from, CUT_BLOCK);
        disk->loose++;
    }
    return __real_pwrite(file, from, length, place);
}

int __wrap_fdatasync(int file) {
    change_disk();
    for (uint32_t number = 0; disk != NULL && number < disk->loose; number++) {
        memcpy(disk->lasting + disk->writes[number].place, disk->writes[number].bytes, CUT_BLOCK);
    }
    if (disk != NULL) {
        disk->loose = 0;
    }
    return __real_fdatasync(file);
}

static inline int open_disk(const char *path) {
    int file = open(path, O_RDWR | O_CLOEXEC);
    MUST(file >= 0);
    return file;
}

/* The disk as its file is now: all of that lasts. */
static inline void keep_disk(const char *path) {
    int file = open_disk(path);
    MUST(pread(file, disk->lasting, disk->length, 0) == (ssize_t)disk->length);
    close(file);
    disk->loose = 0;
    disk->changes_left = -1;
}

/* A disk with the bytes of this file. */
static inline void new_disk(const char *path) {
    int file = open_disk(path);
    off_t length = lseek(file, 0, SEEK_END);
    close(file);
    MUST(length > 0);
    disk = (cut_disk *)common(sizeof *disk + (size_t)length);
    disk->length = (size_t)length;
    keep_disk(path);
}

/* Gives the file what a cut of the power leaves: what lasts, and those of the loose writes for which this is true. */
static inline void cut_power(const char *path, bool (*lands)(void)) {
    int file = open_disk(path);
    for (uint32_t number = 0; number < disk->loose; number++) {
        const loose_write *write = &disk->writes[number];
        MUST(__real_pwrite(file, disk->lasting + write->place, CUT_BLOCK, write->place) == CUT_BLOCK);
    }
    for (uint32_t number = 0; number < disk->loose; number++) {
        const loose_write *write = &disk->writes[number];
        if (lands()) {
            MUST(__real_pwrite(file, write->bytes, CUT_BLOCK, write->place) == CUT_BLOCK);
        }
    }
    close(file);
}

#endif
