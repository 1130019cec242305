/* Kills a child before each write and each sync of the file in a sync: what it leaves opens, has each key with the value of before or after,
 * has the order of groups, and is a store like any other. And before each change that a make does: its name is free, or has a store. */
#define _GNU_SOURCE
#include "system.h"
#include "wanting.h"

#include <sys/wait.h>

/* An index block has 64 keys. Writes go by rising blocks where nothing is said of their order: so those of the first keys are there
 * before those of the last, unless they are of a later group. */
enum { LATER = 0, DELETED = 32, EARLIER = 64, KEYS = 96, LENGTH = 1000, MOST_CHANGES = 1000 };

static const char *key_of(int number) {
    static char key[16];
    snprintf(key, sizeof key, "key %d", number);
    return key;
}

/* Values that take some blocks: all of one letter. */
static int32_t put_letter(fstch_store *store, uint32_t writer, const char *key, char letter) {
    uint8_t value[LENGTH];
    memset(value, letter, sizeof value);
    return fstch_put(store, writer, key, strlen(key), value, sizeof value);
}

/* The letter of a key, or 0 where it has none. */
static char letter_of(fstch_store *store, const char *key) {
    uint8_t value[LENGTH];
    size_t length = 0;
    int32_t answer = fstch_get(store, key, strlen(key), value, sizeof value, &length);
    if (answer == FSTCH_ABSENT) {
        return 0;
    }
    WANT(FSTCH_DONE, answer);
    WANT(LENGTH, length);
    for (size_t place = 1; place < length; place++) {
        MUST(value[place] == value[0]);
    }
    return (char)value[0];
}

/* How many extents the file has, each with room for 64 values. Three are full behind write_first: with 4 puts win room back. */
static uint32_t extents;

/* Puts the letter under each key, or each second one. */
static void put_all(fstch_store *store, int step, char letter) {
    for (int number = step - 1; number < KEYS; number += step) {
        MUST(put_letter(store, FSTCH_NO_WRITER, key_of(number), letter) == FSTCH_DONE);
    }
}

/* All keys have the letter a, and that lasts. */
static void write_first(void) {
    fstch_store store = new_store(2, extents);
    put_all(&store, 1, 'a');
    put_all(&store, 2, 'z');
    put_all(&store, 2, 'a');
    MUST(fstch_sync(&store) == FSTCH_DONE);
    MUST(fstch_close(&store) == FSTCH_DONE);
}

/* Puts the letter b under the keys from one to another, in a new group. */
static void put_in_group(fstch_store *store, int first, int end) {
    uint32_t group = 777;
    MUST(fstch_group(store, &group) == FSTCH_DONE);
    MUST(group == 0 || fstch_group_depend(store, group, group - 1) == FSTCH_DONE);
    MUST(fstch_group_engage(store, group, 3) == FSTCH_DONE);
    for (int number = first; number < end; number++) {
        MUST(put_letter(store, 3, key_of(number), 'b') == FSTCH_DONE);
    }
    MUST(fstch_group_disengage(store, group, 3) == FSTCH_DONE);
}

static void change_and_die(long changes) {
    fstch_store store = FSTCH_CLOSED;
    MUST(open_path(&store, FILE_NAME) == FSTCH_DONE);
    put_in_group(&store, EARLIER, KEYS);
    put_in_group(&store, LATER, DELETED);
    for (int number = DELETED; number < EARLIER; number++) {
        MUST(delete_key(&store, key_of(number)) == FSTCH_DONE);
    }
    changes_till_killed = changes;
    MUST(fstch_sync(&store) == FSTCH_DONE);
    _exit(0);
}

static void make_and_die(long changes) {
    changes_till_killed = changes;
    MUST(make(FILE_NAME, 1, 4) == FSTCH_DONE);
    _exit(0);
}

/* Whether a child that does this was killed; it may not have failed. */
static bool dies(void (*does)(long), long changes) {
    pid_t child = fork();
    MUST(child >= 0);
    if (child == 0) {
        does(changes);
    }
    int status = 0;
    MUST(waitpid(child, &status, 0) == child);
    MUST(WIFSIGNALED(status) ? WTERMSIG(status) == SIGKILL : WEXITSTATUS(status) == 0);
    return WIFSIGNALED(status);
}

static bool is_deleted(int number) {
    return DELETED <= number && number < EARLIER;
}

/* How many of these keys have the letter b. The others have what they had before; after all writes there are no others. */
static int count_changed(fstch_store *store, int first, int end, bool all) {
    int changed = 0;
    for (int number = first; number < end; number++) {
        char letter = letter_of(store, key_of(number));
        MUST(letter == (is_deleted(number) ? 0 : 'b') || (!all && letter == 'a'));
        changed += letter == 'b';
    }
    return changed;
}

static void look(fstch_store *store, bool all) {
    int earlier = count_changed(store, EARLIER, KEYS, all);
    int later = count_changed(store, LATER, DELETED, all);
    count_changed(store, DELETED, EARLIER, all);
    MUST(later == 0 || earlier == KEYS - EARLIER);
}

/* What the child left is a store like any other. */
static void go_on(fstch_store *store) {
    WANT(FSTCH_DONE, put(store, "one more", "value"));
    WANT(FSTCH_DONE, fstch_sync(store));
    WANT(FSTCH_DONE, fstch_close(store));
    WANT(FSTCH_DONE, open_path(store, FILE_NAME));
    WANT(true, has(store, "one more", "value"));
}

/* Wherever syncs are cut short. */
static void syncs_are_killed(void) {
    bool is_killed = true;
    long changes = 0;
    for (; is_killed && changes < MOST_CHANGES; changes++) {
        write_first();
        is_killed = dies(change_and_die, changes);
        fstch_store store = FSTCH_CLOSED;
        WANT(FSTCH_DONE, open_path(&store, FILE_NAME));
        look(&store, !is_killed);
        go_on(&store);
        look(&store, !is_killed);
        WANT(FSTCH_DONE, fstch_close(&store));
    }
    MUST(!is_killed && changes > 10);
    printf("killed before each of %ld writes and syncs, with %u extents\n", changes - 1, (unsigned)extents);
}

static void makes_are_killed(void) {
    bool is_killed = true;
    long changes = 0;
    for (; is_killed && changes < MOST_CHANGES; changes++) {
        fstch_store store = FSTCH_CLOSED;
        remove(FILE_NAME);
        is_killed = dies(make_and_die, changes);
        if (access(FILE_NAME, F_OK) != 0) {
            WANT(true, is_killed);
            WANT(FSTCH_DONE, make(FILE_NAME, 1, 4));
        }
        WANT(FSTCH_DONE, open_path(&store, FILE_NAME));
        go_on(&store);
        WANT(FSTCH_DONE, fstch_close(&store));
    }
    MUST(!is_killed && changes > 5);
    printf("killed before each of %ld changes of a make\n", changes - 1);
}

int main(void) {
    extents = 16;
    syncs_are_killed();
    extents = 4;
    syncs_are_killed();
    makes_are_killed();
    return ended();
}
