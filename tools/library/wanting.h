/* What the C programs beside it share: wants that are counted, and stores with keys and values that are texts. */
#ifndef WANTING_H
#define WANTING_H

#include <fstch.h>

#include <stdio.h>
#include <stdlib.h>
#include <string.h>
#include <sys/types.h>

/* What each program's file is called, in the folder where it runs. */
#define FILE_NAME "test.disk"

#define WANT(wanted, seen) want(__FILE__, __LINE__, #seen, (long long)(wanted), (long long)(seen))
/* (an assert that no flag leaves out) */
#define MUST(holds) ((holds) ? (void)0 : fail(__FILE__, __LINE__, #holds))

static int wrong_wants;

static inline void want(const char *file, int line, const char *asked, long long wanted, long long seen) {
    if (wanted != seen) {
        fprintf(stderr, "%s:%d: %s is %lld, not %lld\n", file, line, asked, seen, wanted);
        wrong_wants++;
    }
}

static inline void fail(const char *file, int line, const char *asked) {
    fprintf(stderr, "%s:%d: not so: %s\n", file, line, asked);
    exit(2);
}

/* The status of a program. */
static inline int ended(void) {
    if (wrong_wants > 0) {
        fprintf(stderr, "%d wrong\n", wrong_wants);
    }
    return wrong_wants > 0;
}

static inline int32_t make(const char *path, uint32_t index_blocks, uint32_t extents) {
    return fstch_make(path, index_blocks, extents, 0);
}

static inline int32_t open_path(fstch_store *store, const char *path) {
    uint32_t slot = 777;
    return fstch_open(store, path, &slot);
}

static inline int32_t open_to_read(fstch_store *store, const char *path) {
    return fstch_open_with(store, path, FSTCH_READ_ONLY, NULL);
}

/* Makes a new file, and opens it. */
static inline fstch_store new_store(uint32_t index_blocks, uint32_t extents) {
    fstch_store store = FSTCH_CLOSED;
    remove(FILE_NAME);
    WANT(FSTCH_DONE, make(FILE_NAME, index_blocks, extents));
    WANT(FSTCH_DONE, open_path(&store, FILE_NAME));
    return store;
}

static inline int32_t put_by(fstch_store *store, uint32_t writer, const char *key, const char *value) {
    return fstch_put(store, writer, key, strlen(key), value, strlen(value));
}

static inline int32_t put(fstch_store *store, const char *key, const char *value) {
    return put_by(store, FSTCH_NO_WRITER, key, value);
}

static inline int32_t delete_key(fstch_store *store, const char *key) {
    return fstch_delete(store, FSTCH_NO_WRITER, key, strlen(key));
}

/* Whether the key has this value; with NULL, whether it has none. */
static inline bool has(fstch_store *store, const char *key, const char *value) {
    uint8_t into[256];
    size_t length = 0;
    int32_t answer = fstch_get(store, key, strlen(key), into, sizeof into, &length);
    if (value == NULL) {
        return answer == FSTCH_ABSENT;
    }
    return answer == FSTCH_DONE && length == strlen(value) && memcmp(into, value, length) == 0;
}

#endif
