/* Two processes at one file: who opens it first has it, until it is closed or its process ends; both have it where they read it alone. A
 * forked child has it, too, until it closes it or runs another program. */
#define _GNU_SOURCE
#include "wanting.h"

#include <fcntl.h>
#include <signal.h>
#include <sys/wait.h>
#include <unistd.h>

/* A child that has the file open, until it is told to go on. */
typedef struct {
    pid_t process;
    int told;
    int tells;
} holder;

static void tell(int to) {
    MUST(write(to, "x", 1) == 1);
}

static void wait_for(int from) {
    char letter;
    MUST(read(from, &letter, 1) == 1);
}

static void hold(int told, int tells) {
    fstch_store store = FSTCH_CLOSED;
    MUST(open_path(&store, FILE_NAME) == FSTCH_DONE);
    MUST(put(&store, "key", "the child's") == FSTCH_DONE);
    tell(tells);
    wait_for(told);
    MUST(fstch_sync(&store) == FSTCH_DONE);
    MUST(fstch_close(&store) == FSTCH_DONE);
    tell(tells);
    wait_for(told);
    MUST(open_path(&store, FILE_NAME) == FSTCH_IN_USE);
    _exit(0);
}

static void hold_to_read(int told, int tells) {
    fstch_store store = FSTCH_CLOSED;
    MUST(open_to_read(&store, FILE_NAME) == FSTCH_DONE);
    MUST(has(&store, "key", "value"));
    tell(tells);
    wait_for(told);
    MUST(fstch_close(&store) == FSTCH_DONE);
    _exit(0);
}

static holder begin(void (*holds)(int told, int tells)) {
    int down[2], up[2];
    MUST(pipe(down) == 0 && pipe(up) == 0);
    holder child = {fork(), down[1], up[0]};
    MUST(child.process >= 0);
    if (child.process == 0) {
        holds(down[0], up[1]);
    }
    close(down[0]);
    close(up[1]);
    return child;
}

static int status_of(holder child) {
    int status = 0;
    MUST(waitpid(child.process, &status, 0) == child.process);
    return status;
}

static void the_lock_goes_from_one_to_the_other(void) {
    fstch_store store = FSTCH_CLOSED;
    holder child = begin(hold);
    wait_for(child.tells);
    WANT(FSTCH_IN_USE, open_path(&store, FILE_NAME));
    WANT(FSTCH_IN_USE, open_to_read(&store, FILE_NAME));
    WANT(false, fstch_is_open(&store));
    tell(child.told);
    wait_for(child.tells);
    WANT(FSTCH_DONE, open_path(&store, FILE_NAME));
    WANT(true, has(&store, "key", "the child's"));
    tell(child.told);
    WANT(0, status_of(child));
    WANT(FSTCH_DONE, put(&store, "key", "value"));
    WANT(FSTCH_DONE, fstch_sync(&store));
    WANT(FSTCH_DONE, fstch_close(&store));
}

static void the_lock_is_gone_with_its_process(void) {
    fstch_store store = FSTCH_CLOSED;
    holder child = begin(hold);
    wait_for(child.tells);
    WANT(FSTCH_IN_USE, open_path(&store, FILE_NAME));
    MUST(kill(child.process, SIGKILL) == 0);
    WANT(true, WIFSIGNALED(status_of(child)));
    WANT(FSTCH_DONE, open_path(&store, FILE_NAME));
    WANT(true, has(&store, "key", "value"));
    WANT(FSTCH_DONE, fstch_close(&store));
}

/* A child that is forked while the file is open, and does nothing, or runs another program. */
static holder forked_child(bool runs) {
    int up[2];
    MUST(pipe(up) == 0 && fcntl(up[1], F_SETFD, FD_CLOEXEC) == 0);
    holder child = {fork(), -1, up[0]};
    MUST(child.process >= 0);
    if (child.process == 0 && runs) {
        execlp("sleep", "sleep", "60", (char *)NULL);
        _exit(1);
    }
    while (child.process == 0) {
        pause();
    }
    close(up[1]);
    return child;
}

static void forked_children_share_the_lock(void) {
    fstch_store store = FSTCH_CLOSED;
    char letter;
    WANT(FSTCH_DONE, open_path(&store, FILE_NAME));
    holder idle = forked_child(false), other = forked_child(true);
    MUST(read(other.tells, &letter, 1) == 0); /* it runs the other program */
    WANT(FSTCH_DONE, fstch_close(&store));
    WANT(FSTCH_IN_USE, open_path(&store, FILE_NAME));
    MUST(kill(idle.process, SIGKILL) == 0);
    WANT(true, WIFSIGNALED(status_of(idle)));
    WANT(FSTCH_DONE, open_path(&store, FILE_NAME));
    WANT(FSTCH_DONE, fstch_close(&store));
    MUST(kill(other.process, SIGKILL) == 0);
    WANT(true, WIFSIGNALED(status_of(other)));
}

/* How a forked child ends that closes the store. */
static int status_of_closing(fstch_store *store) {
    int status = 1;
    pid_t child = fork();
    MUST(child >= 0);
    if (child == 0) {
        _exit(fstch_close(store) == FSTCH_DONE && !fstch_is_open(store) ? 0 : 1);
    }
    MUST(waitpid(child, &status, 0) == child);
    return status;
}

/* What a child closes the parent has as before, and its lock. */
static void a_forked_child_closes(void) {
    fstch_store store = FSTCH_CLOSED, other = FSTCH_CLOSED;
    WANT(FSTCH_DONE, open_path(&store, FILE_NAME));
    WANT(FSTCH_DONE, put(&store, "key", "the parent's"));
    WANT(0, status_of_closing(&store));
    WANT(FSTCH_IN_USE, open_path(&other, FILE_NAME));
    WANT(FSTCH_DONE, fstch_sync(&store));
    WANT(true, has(&store, "key", "the parent's"));
    WANT(FSTCH_DONE, fstch_close(&store));
    WANT(FSTCH_DONE, open_path(&store, FILE_NAME));
    WANT(true, has(&store, "key", "the parent's"));
    WANT(FSTCH_DONE, fstch_close(&store));
}

/* The lock of those who read is gone with the last of them. */
static void several_processes_read(void) {
    fstch_store store = FSTCH_CLOSED, other = FSTCH_CLOSED;
    holder closes = begin(hold_to_read), ends = begin(hold_to_read);
    wait_for(closes.tells);
    wait_for(ends.tells);
    WANT(FSTCH_DONE, open_to_read(&store, FILE_NAME));
    WANT(FSTCH_IN_USE, open_path(&other, FILE_NAME));
    WANT(FSTCH_DONE, fstch_close(&store));
    tell(closes.told);
    WANT(0, status_of(closes));
    WANT(FSTCH_IN_USE, open_path(&other, FILE_NAME));
    MUST(kill(ends.process, SIGKILL) == 0);
    WANT(true, WIFSIGNALED(status_of(ends)));
    WANT(FSTCH_DONE, open_path(&other, FILE_NAME));
    WANT(FSTCH_DONE, fstch_close(&other));
}

static void a_forked_child_closes_what_is_read(void) {
    fstch_store store = FSTCH_CLOSED, other = FSTCH_CLOSED;
    WANT(FSTCH_DONE, open_to_read(&store, FILE_NAME));
    WANT(0, status_of_closing(&store));
    WANT(FSTCH_IN_USE, open_path(&other, FILE_NAME));
    WANT(true, has(&store, "key", "value"));
    WANT(FSTCH_DONE, open_to_read(&other, FILE_NAME));
    WANT(FSTCH_DONE, fstch_close(&store));
    WANT(FSTCH_DONE, fstch_close(&other));
    WANT(FSTCH_DONE, open_path(&store, FILE_NAME));
    WANT(FSTCH_DONE, fstch_close(&store));
}

int main(void) {
    fstch_store store = new_store(1, 4);
    WANT(FSTCH_DONE, put(&store, "key", "value"));
    WANT(FSTCH_DONE, fstch_sync(&store));
    WANT(FSTCH_DONE, fstch_close(&store));
    the_lock_goes_from_one_to_the_other();
    the_lock_is_gone_with_its_process();
    several_processes_read();
    forked_children_share_the_lock();
    a_forked_child_closes_what_is_read();
    a_forked_child_closes();
    return ended();
}
