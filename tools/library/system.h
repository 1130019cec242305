/* The library's calls of the system, which can be made to fail, or to end the program: link with WRAPPED of tools/check_library. */
#ifndef SYSTEM_H
#define SYSTEM_H

#include <errno.h>
#include <signal.h>
#include <stddef.h>
#include <sys/statvfs.h>
#include <sys/types.h>
#include <unistd.h>

/* How many more calls go well; below 0 all do. */
static long changes_till_killed = -1; /* (calls that change something, or let it last) */
static long writes_till_refused = -1;
static long reads_till_refused = -1;
static long syncs_till_refused = -1;
static long allocations_till_refused = -1;
/* How many writes are refused then, before they go well again; below 0 all are. */
static long writes_to_refuse = -1;
/* Whether all allocations are refused then, and not one alone. */
static int is_without_memory;
/* Whether of all calls that a signal may end each other one is ended. */
static int is_interrupting;
/* What is answered where room is asked for, and what errno says where a file is to have another name; with 0 the system answers. */
static int answer_to_room;
static int answer_to_link;
/* What errno says where a sync is refused. */
static int answer_to_sync = EIO;
/* Whether all file systems are said to be read-only. */
static int is_said_to_be_read_only;
/* The most bytes that a read or a write moves. */
static size_t most_moved = (size_t)-1;
/* How many calls there were. */
static long writes_made;
static long syncs_made;

ssize_t __real_pwrite(int file, const void *from, size_t length, off_t place);
ssize_t __real_pread(int file, void *into, size_t length, off_t place);
int __real_fsync(int file);
int __real_fdatasync(int file);
int __real_posix_fallocate(int file, off_t place, off_t length);
int __real_link(const char *from, const char *to);
int __real_unlink(const char *path);
int __real_flock(int file, int how);
int __real_fstatvfs(int file, struct statvfs *found);
void *__real_malloc(size_t length);
void *__real_realloc(void *at, size_t length);

ssize_t __wrap_pwrite(int file, const void *from, size_t length, off_t place);
ssize_t __wrap_pread(int file, void *into, size_t length, off_t place);
int __wrap_fsync(int file);
int __wrap_fdatasync(int file);
int __wrap_posix_fallocate(int file, off_t place, off_t length);
int __wrap_link(const char *from, const char *to);
int __wrap_unlink(const char *path);
int __wrap_flock(int file, int how);
int __wrap_fstatvfs(int file, struct statvfs *found);
void *__wrap_malloc(size_t length);
void *__wrap_realloc(void *at, size_t length);

/* Whether the calls that go well are used up. */
static int is_over(const long *left) {
    return *left == 0;
}

static void count(long *left) {
    if (*left > 0) {
        --*left;
    }
}

/* Before something is changed: where the changes are used up the program is killed. */
static void change(void) {
    if (is_over(&changes_till_killed)) {
        kill(getpid(), SIGKILL);
    }
    count(&changes_till_killed);
}

static int is_interrupted(void) {
    static int is_next;
    is_next = is_interrupting && !is_next;
    errno = is_next ? EINTR : errno;
    return is_next;
}

static size_t moved(size_t length) {
    return length < most_moved ? length : most_moved;
}

ssize_t __wrap_pwrite(int file, const void *from, size_t length, off_t place) {
    change();
    if (is_interrupted()) {
        return -1;
    }
    if (is_over(&writes_till_refused) && !is_over(&writes_to_refuse)) {
        count(&writes_to_refuse);
        errno = EIO;
        return -1;
    }
    count(&writes_till_refused);
    writes_made++;
    return __real_pwrite(file, from, moved(length), place);
}

ssize_t __wrap_pread(int file, void *into, size_t length, off_t place) {
    if (is_interrupted()) {
        return -1;
    }
    if (is_over(&reads_till_refused)) {
        errno = EIO;
        return -1;
    }
    count(&reads_till_refused);
    return __real_pread(file, into, moved(length), place);
}

int __wrap_posix_fallocate(int file, off_t place, off_t length) {
    change();
    if (is_interrupted()) {
        return EINTR;
    }
    return answer_to_room != 0 ? answer_to_room : __real_posix_fallocate(file, place, length);
}

int __wrap_link(const char *from, const char *to) {
    change();
    if (answer_to_link == 0) {
        return __real_link(from, to);
    }
    errno = answer_to_link;
    return -1;
}

int __wrap_unlink(const char *path) {
    change();
    return __real_unlink(path);
}

int __wrap_flock(int file, int how) {
    return is_interrupted() ? -1 : __real_flock(file, how);
}

int __wrap_fstatvfs(int file, struct statvfs *found) {
    int answer = __real_fstatvfs(file, found);
    found->f_flag |= is_said_to_be_read_only ? ST_RDONLY : 0;
    return answer;
}

/* Whether a sync goes well so far. */
static int is_syncing(void) {
    change();
    if (is_interrupted()) {
        return 0;
    }
    if (is_over(&syncs_till_refused)) {
        errno = answer_to_sync;
        return 0;
    }
    count(&syncs_till_refused);
    syncs_made++;
    return 1;
}

int __wrap_fsync(int file) {
    return is_syncing() ? __real_fsync(file) : -1;
}

int __wrap_fdatasync(int file) {
    return is_syncing() ? __real_fdatasync(file) : -1;
}

static int refuses_allocation(void) {
    if (!is_over(&allocations_till_refused)) {
        count(&allocations_till_refused);
        return 0;
    }
    if (!is_without_memory) {
        allocations_till_refused = -1;
    }
    return 1;
}

void *__wrap_malloc(size_t length) {
    return refuses_allocation() ? NULL : __real_malloc(length);
}

void *__wrap_realloc(void *at, size_t length) {
    return refuses_allocation() ? NULL : __real_realloc(at, length);
}

#endif
