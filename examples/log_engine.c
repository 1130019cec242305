/* A log in one file, with an index and a head, on the patch cache: in which order its blocks are written is the cache's alone.
 *
 *     cc examples/log_engine.c -Iout out/libfstch.a -o log_engine
 *     printf '%s\n' one two '' three | ./log_engine log.disk
 *
 * says which records the file has, and appends the lines of its input, each a record. An empty line, and the end, sync it: `synced`.
 *
 * Block 0 begins with how many records there are, block 1 has the place where each of them ends, and the others their bytes. A record is some
 * patches: its bytes, then its place, then the head, each after the one before. So whatever a cut of the power leaves, all that the head
 * counts is there and whole: opening reads the head, and there is nothing to repair. */
#define _DEFAULT_SOURCE
#include <fstch_cache.h>

#include <fcntl.h>
#include <stdio.h>
#include <string.h>
#include <unistd.h>

enum { HEAD, INDEX, LOG, BLOCKS = 64, BLOCK = FSTCH_BLOCK, PLACE = sizeof(uint32_t), MOST = BLOCK / PLACE, ROOM = (BLOCKS - LOG) * BLOCK };

typedef struct {
    fstch_cache cache;
    int file;
    uint32_t count, end; /* of records, and of their bytes */
} engine;

/* Hands a block to the cache, which hasn't got it yet. */
static int32_t need(engine *log, uint32_t block) {
    uint8_t bytes[BLOCK];
    if (fstch_cache_read(&log->cache, block, 0, 0, bytes) == FSTCH_DONE) {
        return FSTCH_DONE;
    }
    return pread(log->file, bytes, BLOCK, (off_t)block * BLOCK) == BLOCK ? fstch_cache_admit(&log->cache, block, bytes) : FSTCH_DISK;
}

static int32_t lay(engine *log, uint32_t block, uint32_t start, const void *bytes, uint32_t length, const uint32_t *after, size_t count,
                   uint32_t *patch) {
    int32_t answer = need(log, block);
    return answer ? answer : fstch_cache_patch(&log->cache, FSTCH_NO_WRITER, block, start, bytes, length, after, count, 0, patch);
}

static int32_t append(engine *log, const char *bytes, uint32_t length) {
    uint32_t parts[BLOCKS], made = 0, end = log->end, count = log->count + 1, place, head;
    int32_t answer = log->count == MOST || length > ROOM - end ? FSTCH_NO_SPACE : FSTCH_DONE;
    for (uint32_t done = 0, part; done < length && !answer; done += part, end += part) {
        part = length - done < BLOCK - end % BLOCK ? length - done : BLOCK - end % BLOCK;
        answer = lay(log, LOG + end / BLOCK, end % BLOCK, bytes + done, part, parts, 0, &parts[made++]);
    }
    answer = answer ? answer : lay(log, INDEX, log->count * PLACE, &end, PLACE, parts, made, &place);
    answer = answer ? answer : lay(log, HEAD, 0, &count, PLACE, &place, 1, &head);
    if (!answer) {
        log->count = count;
        log->end = end;
    }
    return answer;
}

/* Writes one wave after another, and syncs the file behind each, before any of it is completed. Full blocks aren't kept. */
static int32_t flush(engine *log) {
    uint32_t block, blocks[BLOCKS], numbers[BLOCKS], sent;
    uint8_t image[BLOCK];
    do {
        for (sent = 0; fstch_cache_next(&log->cache, &block) == FSTCH_DONE; sent++) {
            int32_t answer = fstch_cache_send(&log->cache, block, &numbers[sent], image, BLOCK);
            if (answer || pwrite(log->file, image, BLOCK, (off_t)block * BLOCK) != BLOCK) {
                return answer ? answer : FSTCH_DISK;
            }
            blocks[sent] = block;
        }
        if (sent > 0 && fdatasync(log->file) != 0) {
            return FSTCH_DISK;
        }
        for (uint32_t done = 0; done < sent; done++) {
            fstch_cache_complete(&log->cache, blocks[done], numbers[done]);
        }
    } while (sent > 0);
    for (block = LOG; block < LOG + log->end / BLOCK; block++) {
        fstch_cache_evict(&log->cache, block);
    }
    return fstch_cache_renew(&log->cache);
}

static uint32_t end_of(engine *log, uint32_t record) {
    uint32_t end = 0;
    fstch_cache_read(&log->cache, INDEX, record * PLACE, PLACE, &end);
    return end;
}

/* A new file is zeros, and so a log of no records. What it shows is synced first, so that it lasts. */
static int32_t open_log(engine *log, const char *path) {
    log->file = open(path, O_RDWR | O_CREAT, 0666);
    if (log->file < 0 || ftruncate(log->file, (off_t)BLOCKS * BLOCK) != 0 || fsync(log->file) != 0) {
        return FSTCH_DISK;
    }
    int32_t answer = fstch_cache_open(&log->cache, BLOCKS);
    answer = answer ? answer : need(log, HEAD);
    answer = answer ? answer : need(log, INDEX);
    answer = answer ? answer : fstch_cache_read(&log->cache, HEAD, 0, PLACE, &log->count);
    log->end = log->count > 0 ? end_of(log, log->count - 1) : 0;
    return answer;
}

static int32_t show(engine *log) {
    uint32_t place = 0;
    for (uint32_t record = 0; record < log->count; record++, putchar('\n')) {
        for (uint32_t end = end_of(log, record); place < end; place++) {
            char byte;
            int32_t answer = need(log, LOG + place / BLOCK);
            answer = answer ? answer : fstch_cache_read(&log->cache, LOG + place / BLOCK, place % BLOCK, 1, &byte);
            if (answer) {
                return answer;
            }
            putchar(byte);
        }
    }
    return FSTCH_DONE;
}

int main(int count, char **words) {
    static char line[ROOM];
    engine log = {.cache = FSTCH_CLOSED, .file = -1};
    int32_t answer = count == 2 ? open_log(&log, words[1]) : FSTCH_DISK;
    answer = answer ? answer : show(&log);
    for (bool goes_on = true; goes_on && !answer;) {
        goes_on = fgets(line, sizeof line, stdin) != NULL;
        uint32_t length = goes_on ? (uint32_t)strcspn(line, "\n") : 0;
        answer = length > 0 ? append(&log, line, length) : flush(&log);
        if (length == 0 && !answer) {
            puts("synced");
            fflush(stdout);
        }
    }
    fstch_cache_close(&log.cache); /* what isn't synced is lost */
    char text[64];
    fstch_error_text(answer, text, sizeof text);
    fprintf(stderr, "%s\n", text);
    return answer != FSTCH_DONE;
}
