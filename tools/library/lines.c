/* Does commands on the store of a file, and answers each by a line, which is written at once: so crashes.py stops the library.
 *
 *     lines FILE [no-barriers] < COMMANDS
 *
 * A line has one command: put W KEY VALUE, get KEY, delete W KEY, reclaim E, group, engage G W, disengage G W, depend G ON, close G,
 * pending G, or sync. W is a writer's number, or - for none; keys and values are in hexadecimal, or - for no bytes. The answers are ok,
 * value HEX, none, group N, pending N, synced, and refused. At the end the store is synced and closed. The status is 1 where this or
 * the opening is refused, and 2 where something isn't a command. Puts win no room back: that is for reclaim alone. */
#define _POSIX_C_SOURCE 200809L
#include <fstch.h>

#include <stdio.h>
#include <stdlib.h>
#include <string.h>

/* Bytes of a word, to be freed. */
typedef struct {
    uint8_t *at;
    size_t length;
} bytes;

static void stop(const char *why) {
    fprintf(stderr, "lines: %s\n", why);
    exit(2);
}

static void require_done(int32_t answer, const char *what) {
    if (answer != FSTCH_DONE) {
        char text[64];
        fstch_error_text(answer, text, sizeof text);
        fprintf(stderr, "lines: %s: %s\n", what, text);
        exit(1);
    }
}

/* The next word of the line. */
static const char *word(void) {
    const char *next = strtok(NULL, " \n");
    if (next == NULL) {
        stop("a command has too few words");
    }
    return next;
}

static uint32_t number(void) {
    return (uint32_t)strtoul(word(), NULL, 10);
}

static uint32_t writer(void) {
    const char *next = word();
    return strcmp(next, "-") == 0 ? FSTCH_NO_WRITER : (uint32_t)strtoul(next, NULL, 10);
}

static uint8_t digit(char letter) {
    const char *digits = "0123456789abcdef";
    const char *found = strchr(digits, letter);
    if (letter == 0 || found == NULL) {
        stop("a word isn't hexadecimal");
    }
    return (uint8_t)(found - digits);
}

static bytes hexadecimal(void) {
    const char *next = word();
    size_t length = strcmp(next, "-") == 0 ? 0 : strlen(next) / 2;
    bytes read = {malloc(length + 1), length};
    if (read.at == NULL) {
        stop("there is no memory");
    }
    for (size_t place = 0; place < length; place++) {
        read.at[place] = (uint8_t)(digit(next[2 * place]) << 4 | digit(next[2 * place + 1]));
    }
    return read;
}

static void say(const char *text) {
    puts(text);
    fflush(stdout);
}

static void say_done(int32_t answer, const char *done) {
    say(answer == FSTCH_DONE ? done : "refused");
}

static void say_number(int32_t answer, const char *what, uint32_t it) {
    char text[32];
    snprintf(text, sizeof text, "%s %u", what, (unsigned)it);
    say_done(answer, text);
}

static void say_value(const uint8_t *value, size_t length) {
    fputs(length == 0 ? "value" : "value ", stdout);
    for (size_t place = 0; place < length; place++) {
        printf("%02x", value[place]);
    }
    say("");
}

static void put(fstch_store *store) {
    uint32_t by = writer();
    bytes key = hexadecimal(), value = hexadecimal();
    say_done(fstch_put(store, by, key.at, key.length, value.at, value.length), "ok");
    free(key.at);
    free(value.at);
}

static void get(fstch_store *store) {
    static uint8_t value[FSTCH_MAX_VALUE];
    size_t length = 0;
    bytes key = hexadecimal();
    int32_t answer = fstch_get(store, key.at, key.length, value, sizeof value, &length);
    if (answer == FSTCH_DONE) {
        say_value(value, length);
    } else {
        say(answer == FSTCH_ABSENT ? "none" : "refused");
    }
    free(key.at);
}

static void delete_key(fstch_store *store) {
    uint32_t by = writer();
    bytes key = hexadecimal();
    say_done(fstch_delete(store, by, key.at, key.length), "ok");
    free(key.at);
}

static void reclaim(fstch_store *store) {
    say_done(fstch_reclaim(store, number()), "ok");
}

static void group(fstch_store *store) {
    uint32_t made = 0;
    int32_t answer = fstch_group(store, &made);
    say_number(answer, "group", made);
}

static void engage(fstch_store *store) {
    uint32_t to = number();
    say_done(fstch_group_engage(store, to, writer()), "ok");
}

static void disengage(fstch_store *store) {
    uint32_t from = number();
    say_done(fstch_group_disengage(store, from, writer()), "ok");
}

static void depend(fstch_store *store) {
    uint32_t later = number();
    say_done(fstch_group_depend(store, later, number()), "ok");
}

static void close_group(fstch_store *store) {
    say_done(fstch_group_close(store, number()), "ok");
}

static void pending(fstch_store *store) {
    uint32_t changes = 0;
    int32_t answer = fstch_group_pending(store, number(), &changes);
    say_number(answer, "pending", changes);
}

static void sync_store(fstch_store *store) {
    say_done(fstch_sync(store), "synced");
}

static const struct {
    const char *name;
    void (*follow)(fstch_store *store);
} COMMANDS[] = {
    {"put", put},
    {"get", get},
    {"delete", delete_key},
    {"reclaim", reclaim},
    {"group", group},
    {"engage", engage},
    {"disengage", disengage},
    {"depend", depend},
    {"close", close_group},
    {"pending", pending},
    {"sync", sync_store},
};

static void follow(fstch_store *store, const char *name) {
    for (size_t at = 0; name != NULL && at < sizeof COMMANDS / sizeof COMMANDS[0]; at++) {
        if (strcmp(name, COMMANDS[at].name) == 0) {
            COMMANDS[at].follow(store);
            return;
        }
    }
    stop("a line isn't a command");
}

int main(int count, char **words) {
    fstch_store store = FSTCH_CLOSED;
    uint32_t slot = 0, flags = FSTCH_MANUAL;
    char *line = NULL;
    size_t room = 0;
    if (count < 2 || count > 3 || (count == 3 && strcmp(words[2], "no-barriers") != 0)) {
        stop("lines FILE [no-barriers]");
    }
    flags |= count == 3 ? FSTCH_NO_BARRIERS : 0;
    require_done(fstch_open_with(&store, words[1], flags, &slot), "it can't be opened");
    while (getline(&line, &room, stdin) > 0) {
        follow(&store, strtok(line, " \n"));
    }
    free(line);
    require_done(fstch_sync(&store), "it can't be synced");
    require_done(fstch_close(&store), "it can't be closed");
    return 0;
}
