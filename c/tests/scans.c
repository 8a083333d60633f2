/*
 * Asks for all boundaries of a text that no session holds, and then for its words, by rooms drawn at
 * random, and prints each with its greatest status: scans RULES TEXT UNIT SEED, where UNIT is one of
 * utf8 and utf16. What the calls answer from other places on and of damaged texts is compared with what
 * they answer of the parts of the text, and the room past what is written with what stood there; where
 * that differs the status is 2.
 */
#include <inttypes.h>
#include <rbbi.h>
#include <stdio.h>
#include <stdlib.h>
#include <string.h>

enum { ROOM = 64, STOOD = 77, TRIES = 200 };

static rbbi_table table = RBBI_INIT;
static int wide;
static const void *text;
static size_t length;

static void must(int is, const char *what) {
    if (!is) {
        fprintf(stderr, "scans: %s\n", what);
        exit(2);
    }
}

static uint64_t state;

static size_t draw(size_t below) {
    state = state * 6364136223846793005u + 1442695040888963407u;
    return (size_t)(state >> 33) % below;
}

static char *bytes_of(const char *name, size_t *size) {
    FILE *file = fopen(name, "rb");
    must(file && fseek(file, 0, SEEK_END) == 0, name);
    *size = (size_t)ftell(file);
    rewind(file);
    char *bytes = malloc(*size + 1);
    must(bytes && fread(bytes, 1, *size, file) == *size, name);
    fclose(file);
    return bytes;
}

/* A text in UTF-8 in UTF-16. */
static uint16_t *units_of(const char *bytes, size_t size, size_t *count) {
    uint16_t *units = malloc((size + 1) * sizeof *units);
    must(units != NULL, "memory");
    *count = 0;
    for (size_t i = 0; i < size;) {
        uint32_t first = (uint8_t)bytes[i++];
        uint32_t more = first < 0xC0 ? 0 : first < 0xE0 ? 1 : first < 0xF0 ? 2 : 3;
        uint32_t c = more == 0 ? first : first & (0x3F >> more);
        while (more-- > 0) {
            c = c << 6 | ((uint8_t)bytes[i++] & 0x3F);
        }
        if (c >= 0x10000) {
            units[(*count)++] = (uint16_t)(0xD800 + ((c - 0x10000) >> 10));
            c = 0xDC00 + ((c - 0x10000) & 0x3FF);
        }
        units[(*count)++] = (uint16_t)c;
    }
    return units;
}

static const void *unit_at(const void *units, size_t place) {
    return (const char *)units + (place << wide);
}

/* Whether a character begins there. */
static int begins(size_t place) {
    return place == length || (wide ? (((const uint16_t *)text)[place] & 0xFC00) != 0xDC00
                                    : (((const uint8_t *)text)[place] & 0xC0) != 0x80);
}

/* What a call answers, of a text from a place on. */
typedef struct {
    uint64_t places[ROOM], resume;
    uint32_t statuses[ROOM];
    size_t count;
    int answer;
} found;

static found ask(const void *units, size_t size, uint64_t from, size_t room, int with_statuses) {
    found all = {{0}, STOOD, {0}, STOOD, 0};
    for (int i = 0; i < ROOM; i++) {
        all.places[i] = all.statuses[i] = STOOD;
    }
    uint32_t *statuses = with_statuses ? all.statuses : NULL;
    all.answer = wide ? rbbi_breaks_utf16(&table, units, size, from, all.places, statuses, room,
                                          &all.count, &all.resume)
                      : rbbi_breaks(&table, units, size, from, all.places, statuses, room, &all.count,
                                    &all.resume);
    size_t written = all.answer == RBBI_OUTSIDE ? 0 : all.count;
    must(all.answer != RBBI_OUTSIDE || (all.count == STOOD && all.resume == STOOD), "a number differs");
    must(written <= room && (all.answer != RBBI_ROOM || written == room), "the count differs");
    for (size_t i = written; i < ROOM; i++) {
        must(all.places[i] == STOOD && all.statuses[i] == STOOD, "the room past what is written differs");
    }
    for (size_t i = 0; !with_statuses && i < written; i++) {
        must(all.statuses[i] == STOOD, "statuses that aren't wanted are written");
    }
    return all;
}

/* From a place on the boundaries are those of the text that begins there. */
static void check_from(size_t from) {
    size_t room = draw(ROOM + 1);
    found here = ask(text, length, from, room, 1);
    found there = ask(unit_at(text, from), length - from, 0, room, 1);
    must(here.answer == there.answer && here.count == there.count, "an answer differs");
    must(here.resume == there.resume + from, "a place differs");
    for (size_t i = 0; i < here.count; i++) {
        must(here.places[i] == there.places[i] + from, "a boundary differs");
        must(here.statuses[i] == there.statuses[i], "a status differs");
    }
}

/* A fault is told at its place, after boundaries that the text before it has. */
static void check_damaged(size_t from, size_t fault) {
    size_t size = (length - from) << wide, at = fault - from;
    char *copy = malloc(size + 2);
    must(copy != NULL, "memory");
    memcpy(copy, unit_at(text, from), size);
    if (wide) {
        ((uint16_t *)(void *)copy)[at] = 0xDC00;
    } else {
        copy[at] = (char)0xFF;
    }
    found damaged = ask(copy, length - from, 0, ROOM, 1), cut = ask(copy, at, 0, ROOM, 1);
    must(damaged.count <= cut.count, "the count before a fault differs");
    for (size_t i = 0; i < damaged.count; i++) {
        must(damaged.places[i] == cut.places[i], "a boundary before a fault differs");
        must(damaged.statuses[i] == cut.statuses[i], "a status before a fault differs");
    }
    int refusal = wide ? RBBI_LONE : RBBI_NOT_UTF8;
    must(damaged.answer == RBBI_ROOM || (damaged.answer == refusal && damaged.resume == at), "the fault differs");
    free(copy);
}

/* The words, each with both ends. */
static void print_words(void) {
    uint64_t starts[ROOM], ends[ROOM], resume = 0;
    uint32_t statuses[ROOM];
    size_t count;
    int answer;
    do {
        size_t room = draw(ROOM + 1);
        answer = wide ? rbbi_words_utf16(&table, text, length, resume, starts, ends, statuses, room, &count,
                                         &resume)
                      : rbbi_words(&table, text, length, resume, starts, ends, statuses, room, &count,
                                   &resume);
        must(answer == RBBI_OK || answer == RBBI_ROOM, "an answer on words differs");
        must(count <= room && (answer == RBBI_OK || count == room), "the count of words differs");
        for (size_t i = 0; i < count; i++) {
            printf("%" PRIu64 " %" PRIu64 " %" PRIu32 "\n", starts[i], ends[i], statuses[i]);
        }
    } while (answer == RBBI_ROOM);
    must(resume == length, "the end of the words differs");
}

int main(int count, char **words) {
    size_t rules_size, size;
    must(count == 5, "RULES TEXT UNIT SEED");
    char *rules = bytes_of(words[1], &rules_size), *bytes = bytes_of(words[2], &size);
    must(rbbi_table_compile(&table, NULL, rules, rules_size, 0, NULL) == RBBI_OK, words[1]);
    wide = strcmp(words[3], "utf16") == 0;
    state = strtoull(words[4], NULL, 10);
    uint16_t *units = units_of(bytes, size, &length);
    text = wide ? (const void *)units : bytes;
    length = wide ? length : size;
    found now = {{0}, 0, {0}, 0, RBBI_ROOM};
    while (now.answer == RBBI_ROOM) {
        uint64_t from = now.resume;
        size_t room = draw(ROOM + 1);
        now = ask(text, length, from, room, 1);
        found places = ask(text, length, from, room, 0);
        must(now.answer == places.answer && now.count == places.count, "an answer differs");
        must(memcmp(now.places, places.places, sizeof now.places) == 0, "a place differs");
        must(now.resume == places.resume, "where to go on differs");
        must(now.resume == (now.count > 0 ? now.places[now.count - 1] : from), "where to go on differs");
        for (size_t i = 0; i < now.count; i++) {
            printf("%" PRIu64 " %" PRIu32 "\n", now.places[i], now.statuses[i]);
        }
    }
    must(now.answer == RBBI_OK && now.resume == length, "the end differs");
    must(ask(text, length, length + 1, ROOM, 1).answer == RBBI_OUTSIDE, "a place past the end is taken");
    print_words();
    for (int i = 0; i < TRIES; i++) {
        size_t from = draw(length + 1), fault = from + draw(length - from + 1);
        if (begins(from)) {
            check_from(from);
            if (fault < length && begins(fault)) {
                check_damaged(from, fault);
            }
        }
    }
    free(rules);
    free(bytes);
    free(units);
    rbbi_table_close(&table);
    return 0;
}
