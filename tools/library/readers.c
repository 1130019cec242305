/* Stores that are opened to be read alone: several at once, none beside one that may change the file, whoever may write it, and what is
 * answered where the system refuses their sync of it. */
#define _GNU_SOURCE
#include "system.h"
#include "wanting.h"

#include <fcntl.h>
#include <sys/stat.h>
#include <sys/wait.h>

/* A user that has no right but those that all have. */
enum { NOBODY = 65534, DESCRIPTORS = 64 };

/* How this program has the file open. */
static int access_to_file(void) {
    struct stat file, found;
    MUST(stat(FILE_NAME, &file) == 0);
    for (int number = 0; number < DESCRIPTORS; number++) {
        if (fstat(number, &found) == 0 && found.st_dev == file.st_dev && found.st_ino == file.st_ino) {
            return fcntl(number, F_GETFL) & O_ACCMODE;
        }
    }
    return -1;
}

/* That nobody has the file open any more, and that the key has its value there. */
static void wants_as_made(void) {
    fstch_store store = FSTCH_CLOSED;
    WANT(FSTCH_DONE, open_path(&store, FILE_NAME));
    WANT(true, has(&store, "key", "value"));
    WANT(FSTCH_DONE, fstch_close(&store));
}

static void a_file_is_only_read(void) {
    fstch_store store = FSTCH_CLOSED;
    uint32_t slot = 777;
    writes_made = syncs_made = 0;
    WANT(FSTCH_DONE, fstch_open_with(&store, FILE_NAME, FSTCH_READ_ONLY, &slot));
    WANT(777, slot);
    WANT(0, writes_made);
    WANT(1, syncs_made);
    WANT(O_RDONLY, access_to_file());
    WANT(true, has(&store, "key", "value"));
    WANT(FSTCH_DONE, fstch_close(&store));
    WANT(-1, access_to_file());
    WANT(FSTCH_DONE, fstch_open_with(&store, FILE_NAME, FSTCH_READ_ONLY | FSTCH_NO_BARRIERS | FSTCH_MANUAL, &slot));
    WANT(O_RDONLY, access_to_file());
    WANT(FSTCH_IS_READ_ONLY, fstch_sync(&store));
    WANT(FSTCH_DONE, fstch_close(&store));
    WANT(FSTCH_DONE, open_path(&store, FILE_NAME));
    WANT(O_RDWR, access_to_file());
    WANT(FSTCH_DONE, fstch_close(&store));
}

/* What closes its store leaves the others theirs, and their locks. */
static void several_read_at_once(void) {
    fstch_store first = FSTCH_CLOSED, second = FSTCH_CLOSED, third = FSTCH_CLOSED, writer = FSTCH_CLOSED;
    WANT(FSTCH_DONE, open_to_read(&first, FILE_NAME));
    WANT(FSTCH_IS_OPEN, open_to_read(&first, FILE_NAME));
    WANT(FSTCH_DONE, open_to_read(&second, FILE_NAME));
    WANT(FSTCH_IN_USE, open_path(&writer, FILE_NAME));
    WANT(FSTCH_IN_USE, fstch_open_with(&writer, FILE_NAME, FSTCH_NO_BARRIERS, NULL));
    WANT(false, fstch_is_open(&writer));
    WANT(FSTCH_DONE, open_to_read(&third, FILE_NAME));
    WANT(FSTCH_DONE, fstch_close(&first));
    WANT(FSTCH_DONE, fstch_close(&third));
    WANT(FSTCH_IN_USE, open_path(&writer, FILE_NAME));
    WANT(true, has(&second, "key", "value"));
    WANT(FSTCH_DONE, fstch_close(&second));
    WANT(FSTCH_DONE, open_path(&writer, FILE_NAME));
    WANT(FSTCH_IN_USE, open_to_read(&first, FILE_NAME));
    WANT(false, fstch_is_open(&first));
    WANT(FSTCH_DONE, fstch_close(&writer));
    WANT(FSTCH_DONE, open_to_read(&first, FILE_NAME));
    WANT(FSTCH_DONE, fstch_close(&first));
}

static void a_sync_is_refused(fstch_store *store) {
    uint32_t before = 777, after = 777;
    WANT(FSTCH_DONE, fstch_unsynced(store, &before));
    WANT(FSTCH_IS_READ_ONLY, fstch_sync(store));
    WANT(FSTCH_IS_READ_ONLY, fstch_sync(store));
    WANT(FSTCH_DONE, fstch_unsynced(store, &after));
    WANT(before, after);
}

/* One store's changes are its own: neither the file nor another store has them. */
static void changes_stay_in_memory(void) {
    static uint8_t value[32768];
    fstch_store store = FSTCH_CLOSED, other = FSTCH_CLOSED;
    uint32_t group = 777, changes = 777;
    WANT(FSTCH_DONE, open_to_read(&store, FILE_NAME));
    WANT(FSTCH_DONE, open_to_read(&other, FILE_NAME));
    writes_made = syncs_made = 0;
    a_sync_is_refused(&store);
    WANT(FSTCH_DONE, fstch_group(&store, &group));
    WANT(FSTCH_DONE, fstch_group_engage(&store, group, 0));
    WANT(FSTCH_DONE, put_by(&store, 0, "key", "changed"));
    WANT(FSTCH_DONE, put(&store, "new", "value"));
    a_sync_is_refused(&store);
    WANT(FSTCH_DONE, fstch_group_pending(&store, group, &changes));
    WANT(true, changes > 0);
    WANT(true, has(&store, "key", "changed"));
    WANT(FSTCH_DONE, delete_key(&store, "key"));
    WANT(FSTCH_DONE, fstch_put(&store, FSTCH_NO_WRITER, "long", 4, value, sizeof value));
    WANT(FSTCH_DONE, fstch_put(&store, FSTCH_NO_WRITER, "long", 4, value, sizeof value));
    WANT(FSTCH_DONE, fstch_reclaim(&store, 0));
    a_sync_is_refused(&store);
    WANT(true, has(&store, "key", NULL) && has(&store, "new", "value"));
    WANT(true, has(&other, "key", "value") && has(&other, "new", NULL));
    WANT(FSTCH_DONE, fstch_close(&store));
    WANT(FSTCH_NOT_OPEN, fstch_sync(&store));
    WANT(FSTCH_DONE, fstch_close(&other));
    WANT(0, writes_made);
    WANT(0, syncs_made);
    wants_as_made();
}

/* By a child that may not write it. */
static int reads_without_a_right(void) {
    fstch_store store = FSTCH_CLOSED;
    MUST(geteuid() != 0 || (setgid(NOBODY) == 0 && setuid(NOBODY) == 0));
    WANT(FSTCH_DISK, open_path(&store, FILE_NAME));
    WANT(EACCES, errno);
    WANT(FSTCH_DONE, open_to_read(&store, FILE_NAME));
    WANT(true, has(&store, "key", "value"));
    WANT(FSTCH_DONE, fstch_close(&store));
    return ended();
}

static void a_file_may_not_be_written(void) {
    fstch_store store = FSTCH_CLOSED;
    int status = 1;
    MUST(chmod(FILE_NAME, 0444) == 0);
    WANT(FSTCH_DONE, open_to_read(&store, FILE_NAME));
    pid_t child = fork();
    MUST(child >= 0);
    if (child == 0) {
        _exit(reads_without_a_right());
    }
    MUST(waitpid(child, &status, 0) == child);
    WANT(0, status);
    WANT(FSTCH_DONE, fstch_close(&store));
    MUST(chmod(FILE_NAME, 0644) == 0);
}

static void wants_no_open(const char *path, int why) {
    fstch_store store = FSTCH_CLOSED;
    WANT(FSTCH_DISK, open_to_read(&store, path));
    WANT(why, errno);
    WANT(false, fstch_is_open(&store));
}

static void what_is_no_file_is_refused(void) {
    wants_no_open("nothing", ENOENT);
    wants_no_open("", ENOENT);
    wants_no_open(".", EISDIR);
    MUST(mkfifo("pipe", 0666) == 0);
    wants_no_open("pipe", ESPIPE);
    MUST(remove("pipe") == 0);
}

/* The lock is let go where a file is refused. */
static void a_damaged_file_is_refused(void) {
    fstch_store store = FSTCH_CLOSED;
    uint32_t slot = 777;
    uint8_t first = 9;
    int file = open(FILE_NAME, O_RDWR);
    MUST(file >= 0 && pread(file, &first, 1, 4096) == 1 && pwrite(file, "\xff", 1, 4096) == 1);
    WANT(FSTCH_BAD_SLOT, fstch_open_with(&store, FILE_NAME, FSTCH_READ_ONLY, &slot));
    WANT(0, slot);
    WANT(false, fstch_is_open(&store));
    MUST(pwrite(file, &first, 1, 4096) == 1 && close(file) == 0);
    wants_as_made();
}

/* What an open answers where its sync is refused like this, by a file system that is read-only or not. */
static int32_t opened_without_sync(int why, int is_on_read_only) {
    fstch_store store = FSTCH_CLOSED;
    answer_to_sync = why;
    is_said_to_be_read_only = is_on_read_only;
    syncs_till_refused = 0;
    int32_t answer = open_to_read(&store, FILE_NAME);
    WANT(true, answer == FSTCH_DONE ? has(&store, "key", "value") : errno == why);
    syncs_till_refused = -1;
    is_said_to_be_read_only = 0;
    answer_to_sync = EIO;
    WANT(answer == FSTCH_DONE ? FSTCH_DONE : FSTCH_NOT_OPEN, fstch_close(&store));
    wants_as_made();
    return answer;
}

/* But for one that has no syncs, as it is read-only, each refusal may hide what isn't on the disk. */
static void a_sync_of_the_file_is_refused(void) {
    WANT(FSTCH_DONE, opened_without_sync(EINVAL, true));
    WANT(FSTCH_DISK, opened_without_sync(EINVAL, false));
    static const int refusals[] = {EIO, EROFS, EBADF};
    for (size_t number = 0; number < sizeof refusals / sizeof *refusals; number++) {
        WANT(FSTCH_DISK, opened_without_sync(refusals[number], true));
        WANT(FSTCH_DISK, opened_without_sync(refusals[number], false));
    }
}

static void calls_are_taken_up_again(void) {
    fstch_store store = FSTCH_CLOSED, other = FSTCH_CLOSED;
    is_interrupting = true;
    most_moved = 1000;
    WANT(FSTCH_DONE, open_to_read(&store, FILE_NAME));
    WANT(FSTCH_DONE, open_to_read(&other, FILE_NAME));
    is_interrupting = false;
    most_moved = (size_t)-1;
    WANT(true, has(&store, "key", "value") && has(&other, "key", "value"));
    WANT(FSTCH_DONE, fstch_close(&store));
    WANT(FSTCH_DONE, fstch_close(&other));
}

int main(void) {
    fstch_store store = new_store(1, 4);
    WANT(FSTCH_DONE, put(&store, "key", "value"));
    WANT(FSTCH_DONE, fstch_sync(&store));
    WANT(FSTCH_DONE, fstch_close(&store));
    a_file_is_only_read();
    several_read_at_once();
    changes_stay_in_memory();
    a_file_may_not_be_written();
    what_is_no_file_is_refused();
    a_damaged_file_is_refused();
    a_sync_of_the_file_is_refused();
    calls_are_taken_up_again();
    return ended();
}
