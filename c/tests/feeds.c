/*
 * Scans a text that is fed in pieces drawn at random, with rooms drawn at random: first for all
 * boundaries, and then for its words, and prints each with its greatest status: feeds RULES TEXT UNIT
 * SEED, where UNIT is one of utf8 and utf16. What is found of damaged texts is compared with what is
 * found of the text, and the room past what is written with what stood there; where that differs the
 * status is 2.
 */
#include <inttypes.h>
#include <rbbi.h>
#include <stdio.h>
#include <stdlib.h>
#include <string.h>

enum { ROOM = 64, STOOD = 77, TRIES = 100 };

static rbbi_table table = RBBI_INIT;
static int wide;

static void must(int is, const char *what) {
    if (!is) {
        fprintf(stderr, "feeds: %s\n", what);
        exit(2);
    }
}

static uint64_t state;

static size_t draw(size_t below) {
    state = state * 6364136223846793005u + 1442695040888963407u;
    return (size_t)(state >> 33) % below;
}

static char *bytes_of(const char *name, size_t *size) {
    FILE *file = fopen(name, "rb");
    must(file && fseek(file, 0, SEEK_END) == 0, name);
    *size = (size_t)ftell(file);
    rewind(file);
    char *bytes = malloc(*size + 1);
    must(bytes && fread(bytes, 1, *size, file) == *size, name);
    fclose(file);
    return bytes;
}

/* A text in UTF-8 in UTF-16. */
static uint16_t *units_of(const char *bytes, size_t size, size_t *count) {
    uint16_t *units = malloc((size + 1) * sizeof *units);
    must(units != NULL, "memory");
    *count = 0;
    for (size_t i = 0; i < size;) {
        uint32_t first = (uint8_t)bytes[i++];
        uint32_t more = first < 0xC0 ? 0 : first < 0xE0 ? 1 : first < 0xF0 ? 2 : 3;
        uint32_t c = more == 0 ? first : first & (0x3F >> more);
        while (more-- > 0) {
            c = c << 6 | ((uint8_t)bytes[i++] & 0x3F);
        }
        if (c >= 0x10000) {
            units[(*count)++] = (uint16_t)(0xD800 + ((c - 0x10000) >> 10));
            c = 0xDC00 + ((c - 0x10000) & 0x3FF);
        }
        units[(*count)++] = (uint16_t)c;
    }
    return units;
}

/* The segments of a text, where its scan stopped, and at which place. */
typedef struct {
    uint64_t *starts, *ends, place;
    uint32_t *statuses;
    size_t count;
    int answer;
} found;

static void free_found(found *all) {
    free(all->starts);
    free(all->ends);
    free(all->statuses);
}

/* Feeds the next piece, copied to a block of just its size. */
static void feed(rbbi_scan *scan, const void *text, size_t from, size_t size, int is_last) {
    size_t bytes = size << wide;
    char *piece = malloc(bytes + (bytes == 0));
    must(piece != NULL, "memory");
    memcpy(piece, (const char *)text + (from << wide), bytes);
    const void *units = size > 0 || draw(2) == 0 ? piece : NULL;
    must((wide ? rbbi_scan_feed(scan, "a", 1, 0) : rbbi_scan_feed_utf16(scan, units, 0, 0)) == RBBI_UNIT,
         "the other unit is taken");
    must((wide ? rbbi_scan_feed_utf16(scan, units, size, is_last)
               : rbbi_scan_feed(scan, units, size, is_last)) == RBBI_OK,
         "a piece is refused");
    free(piece);
}

/* Takes what there is, by a room drawn at random, and answers as the call does. */
static int take(rbbi_scan *scan, found *all, int only_words) {
    uint64_t starts[ROOM], ends[ROOM];
    uint32_t statuses[ROOM];
    size_t room = draw(ROOM + 1), count = STOOD;
    for (int i = 0; i < ROOM; i++) {
        starts[i] = ends[i] = statuses[i] = STOOD;
    }
    int with_starts = only_words || draw(2) == 0;
    int answer = rbbi_scan_next(scan, with_starts ? starts : NULL, ends, statuses, room, &count, &all->place);
    must(count <= room && (answer != RBBI_ROOM || count == room), "the count differs");
    for (size_t i = count; i < ROOM; i++) {
        must(starts[i] == STOOD && ends[i] == STOOD && statuses[i] == STOOD, "the room past what is written differs");
    }
    for (size_t i = 0; i < count; i++) {
        uint64_t last = all->count > 0 ? all->ends[all->count - 1] : 0;
        must(with_starts ? starts[i] >= last && (only_words || starts[i] == last) : starts[i] == STOOD,
             "a start differs");
        all->starts[all->count] = starts[i];
        all->ends[all->count] = ends[i];
        all->statuses[all->count] = statuses[i];
        all->count++;
    }
    return answer;
}

/* Scans a text by pieces of less than so many units. */
static found scan(const void *text, size_t length, int only_words, size_t piece) {
    rbbi_scan scan = RBBI_INIT;
    found all = {malloc((length + 1) * 8), malloc((length + 1) * 8), 0, malloc((length + 1) * 4), 0, RBBI_DONE};
    must(all.starts && all.ends && all.statuses, "memory");
    must(rbbi_scan_open(&scan, &table, wide ? RBBI_UTF16 : RBBI_UTF8, only_words) == RBBI_OK, "a scan");
    size_t fed = 0;
    int is_last = 0;
    while (all.answer == RBBI_DONE || all.answer == RBBI_ROOM) {
        if (all.answer == RBBI_DONE) {
            size_t size = draw(piece);
            size = size < length - fed ? size : length - fed;
            is_last = fed + size == length && draw(2) == 0;
            feed(&scan, text, fed, size, is_last);
            fed += size;
        }
        all.answer = take(&scan, &all, only_words);
        must(!is_last || all.answer != RBBI_DONE, "a scan doesn't end");
    }
    if (is_last) {
        int again = wide ? rbbi_scan_feed_utf16(&scan, NULL, 0, 1) : rbbi_scan_feed(&scan, NULL, 0, 0);
        must(again == RBBI_OUTSIDE, "a piece after the last one is taken");
    }
    rbbi_scan_close(&scan);
    return all;
}

/* A fault is told at its place, after boundaries that the text has. */
static void check_damaged(const void *text, size_t length, const found *whole) {
    size_t at = draw(length);
    char *copy = malloc(length << wide);
    must(copy != NULL, "memory");
    memcpy(copy, text, length << wide);
    if (wide) {
        at -= (((const uint16_t *)text)[at] & 0xFC00) == 0xDC00;
        ((uint16_t *)(void *)copy)[at] = 0xDC00;
    } else {
        while ((copy[at] & 0xC0) == 0x80) {
            at--;
        }
        copy[at] = (char)0xFF;
    }
    found all = scan(copy, length, 0, 1 + draw(400));
    must(all.answer == (wide ? RBBI_LONE : RBBI_NOT_UTF8) && all.place == at, "the fault differs");
    must(all.count <= whole->count, "the count before a fault differs");
    for (size_t i = 0; i < all.count; i++) {
        must(all.ends[i] == whole->ends[i], "a boundary before a fault differs");
        must(all.ends[i] <= at, "a boundary past a fault is given");
    }
    free_found(&all);
    free(copy);
}

int main(int count, char **words) {
    size_t rules_size, size, length;
    must(count == 5, "RULES TEXT UNIT SEED");
    char *rules = bytes_of(words[1], &rules_size), *bytes = bytes_of(words[2], &size);
    must(rbbi_table_compile(&table, NULL, rules, rules_size, 0, NULL) == RBBI_OK, words[1]);
    wide = strcmp(words[3], "utf16") == 0;
    state = strtoull(words[4], NULL, 10);
    uint16_t *units = units_of(bytes, size, &length);
    const void *text = wide ? (const void *)units : bytes;
    length = wide ? length : size;
    found all = scan(text, length, 0, 300), parts = scan(text, length, 1, 40), single = scan(text, length, 0, 2);
    must(all.answer == RBBI_OK && all.place == length, "the end differs");
    must(parts.answer == RBBI_OK && parts.place == length, "the end of the words differs");
    must(single.answer == RBBI_OK && single.count == all.count, "the count of short pieces differs");
    must(memcmp(single.ends, all.ends, all.count * 8) == 0, "the boundaries of short pieces differ");
    for (size_t i = 0; i < all.count; i++) {
        printf("%" PRIu64 " %" PRIu32 "\n", all.ends[i], all.statuses[i]);
    }
    for (size_t i = 0; i < parts.count; i++) {
        printf("%" PRIu64 " %" PRIu64 " %" PRIu32 "\n", parts.starts[i], parts.ends[i], parts.statuses[i]);
    }
    for (int i = 0; i < TRIES; i++) {
        check_damaged(text, length, &all);
    }
    rbbi_scan other = RBBI_INIT;
    must(rbbi_scan_open(&other, &table, RBBI_CHARS, 0) == RBBI_UNIT, "a unit is taken");
    must(rbbi_scan_open(NULL, &table, RBBI_UTF8, 0) == RBBI_NULL, "no scan is taken");
    must(rbbi_scan_feed(&other, "a", 1, 1) == RBBI_HANDLE, "an empty handle is taken");
    must(rbbi_scan_open(&other, &table, RBBI_UTF8, 0) == RBBI_OK, "a scan is refused");
    must(rbbi_scan_open(&other, &table, RBBI_UTF8, 0) == RBBI_HANDLE, "an open scan is opened");
    must(rbbi_scan_feed(&other, NULL, 1, 1) == RBBI_NULL, "no piece is taken");
    rbbi_scan_close(&other);
    rbbi_scan_close(NULL);
    free_found(&all);
    free_found(&parts);
    free_found(&single);
    free(rules);
    free(bytes);
    free(units);
    rbbi_table_close(&table);
    return 0;
}
