/*
 * Plays a script as `rbbi run` does, through the C library: driver RULES TEXT SCRIPT UNIT
 * [--suppress|--tailor FILE]. Places count UNIT, one of chars, utf8 and utf16. Of the edits only
 * `replace` is known, without escapes. A session without a filter is also asked in other ways. With the
 * word `tally` last it plays the script as `rbbi tally` does, without the length after `ok`.
 * After each line the calls that read many boundaries at once, or a segment, are compared with the
 * questions, and after each edit what it changed with the boundaries of both texts; where they differ
 * the status is 2.
 */
#include <rbbi.h>
#include <stdio.h>
#include <stdlib.h>
#include <string.h>

static char *bytes_of(const char *name, size_t *length) {
    FILE *file = fopen(name, "rb");
    if (!file || fseek(file, 0, SEEK_END) != 0) {
        fprintf(stderr, "driver: %s can't be read\n", name);
        exit(2);
    }
    size_t size = (size_t)ftell(file);
    char *bytes = malloc(size + 1);
    rewind(file);
    if (!bytes || fread(bytes, 1, size, file) != size) {
        exit(2);
    }
    bytes[size] = 0;
    fclose(file);
    *length = size;
    return bytes;
}

static void must(int answer, const char *what) {
    if (answer > RBBI_DONE) {
        fprintf(stderr, "driver: %s: %s\n", what, rbbi_message(answer));
        exit(2);
    }
}

static void place(int answer, const uint32_t *told) {
    must(answer, "question");
    if (answer == RBBI_DONE) {
        puts("done");
    } else {
        printf("%u\n", *told);
    }
}

/* Whether an edit is accepted; a refusal is printed. */
static int accepted(int answer) {
    switch (answer) {
    case RBBI_OK:
        break;
    case RBBI_OUTSIDE:
        puts("outside");
        break;
    case RBBI_INSIDE:
        puts("inside");
        break;
    case RBBI_TOO_LONG:
        puts("toolong");
        break;
    default:
        must(answer, "edit");
    }
    return answer == RBBI_OK;
}

static void edited(rbbi_session *session, int answer) {
    uint32_t length;
    if (accepted(answer)) {
        must(rbbi_session_length(session, &length), "length");
        printf("ok %u\n", length);
    }
}

static void statuses(rbbi_session *session) {
    uint32_t room[2], *all = room;
    size_t count, size = 2;
    int answer = rbbi_session_statuses(session, all, size, &count);
    if (answer == RBBI_ROOM) {
        all = malloc(count * sizeof *all);
        answer = rbbi_session_statuses(session, all, count, &count);
    }
    must(answer, "statuses");
    for (size_t i = 0; i < count; i++) {
        printf("%s%u", i ? "," : "", all[i]);
    }
    puts("");
    if (all != room) {
        free(all);
    }
}

static void same(int is, const char *what) {
    if (!is) {
        fprintf(stderr, "driver: %s differs\n", what);
        exit(2);
    }
}

/* The boundaries of a text but the one at 0, with their statuses. */
typedef struct {
    uint32_t *places, *statuses;
    size_t count;
} listed;

static listed list(rbbi_session *session) {
    uint32_t length, resume;
    must(rbbi_session_length(session, &length), "length");
    listed all = {malloc((length + 1) * sizeof length), malloc((length + 1) * sizeof length), 0};
    must(rbbi_session_boundaries(session, 0, UINT32_MAX, all.places, all.statuses, length + 1,
                                 &all.count, &resume),
         "boundaries");
    return all;
}

static void release(listed all) {
    free(all.places);
    free(all.statuses);
}

/* Whether there is a boundary at a place, with a number there. */
static int has(const listed *all, size_t i, uint32_t place) {
    return i < all->count && all->places[i] == place;
}

static int differ(const listed *old, size_t i, uint32_t place, const listed *new, size_t k,
                  uint32_t other) {
    return has(old, i, place) != has(new, k, other)
           || (has(old, i, place) && old->statuses[i] != new->statuses[k]);
}

/* Compares what an edit changed: outside of the range all is as before, and at its ends, where they
   aren't the edit's, it isn't. */
static void compare_change(const listed *old, const listed *new, uint32_t at, uint32_t remove,
                           rbbi_change change) {
    size_t i = 0, j = old->count, k = new->count;
    same(change.from <= at && at + remove <= change.old_to, "the range");
    while (i < j && i < k && old->places[i] < change.from && new->places[i] < change.from) {
        same(!differ(old, i, old->places[i], new, i, old->places[i]), "before the range");
        i++;
    }
    same((i == j || old->places[i] >= change.from) && (i == k || new->places[i] >= change.from),
         "a boundary before the range");
    same(change.from == at || differ(old, i, change.from, new, i, change.from), "the start");
    while (j > 0 && k > 0 && old->places[j - 1] > change.old_to && new->places[k - 1] > change.new_to) {
        j--;
        k--;
        same(!differ(old, j, old->places[j], new, k, old->places[j] - change.old_to + change.new_to),
             "behind the range");
    }
    same((j == 0 || old->places[j - 1] <= change.old_to)
             && (k == 0 || new->places[k - 1] <= change.new_to),
         "a boundary behind the range");
    same(change.old_to == at + remove
             || differ(old, j ? j - 1 : old->count, change.old_to, new, k ? k - 1 : new->count,
                       change.new_to),
         "the end");
}

/* Compares what is to be drawn again with the boundaries around what changed. */
static void compare_redraw(rbbi_session *session, const listed *new, rbbi_change change) {
    uint32_t from = 0, to, start = 7, end = 7, cursor, after;
    must(rbbi_session_length(session, &to), "length");
    for (size_t i = 0; i < new->count; i++) {
        from = new->places[i] < change.from ? new->places[i] : from;
    }
    for (size_t i = new->count; i > 0; i--) {
        to = new->places[i - 1] > change.new_to ? new->places[i - 1] : to;
    }
    must(rbbi_session_current(session, &cursor), "current");
    must(rbbi_session_redraw(session, &change, &start, &end), "redraw");
    must(rbbi_session_current(session, &after), "current");
    same(start == from && end == to && cursor == after, "what is drawn again");
}

/* Whether the session has a filter. */
static int filtered;

static int edit(rbbi_session *session, uint32_t at, uint32_t remove, const char *insert) {
    rbbi_change change = {7, 7, 7};
    if (filtered) {
        return rbbi_session_replace(session, at, remove, insert, strlen(insert));
    }
    rbbi_session before = RBBI_INIT;
    uint32_t cursor, forked;
    must(rbbi_session_fork(session, &before), "fork");
    must(rbbi_session_current(session, &cursor), "current");
    must(rbbi_session_current(&before, &forked), "current");
    same(cursor == forked, "the cursor of a fork");
    int answer = rbbi_session_replace_changed(session, at, remove, insert, strlen(insert), &change);
    listed old = list(&before), new = list(session);
    rbbi_session_close(&before);
    if (answer == RBBI_OK) {
        compare_change(&old, &new, at, remove, change);
        compare_redraw(session, &new, change);
    } else {
        same(change.from == 7 && change.old_to == 7 && change.new_to == 7, "a refused edit");
    }
    release(old);
    release(new);
    return answer;
}

static void play(rbbi_session *session, char *line) {
    uint32_t told = 0, a, b;
    int at;
    if (sscanf(line, "following %u", &a) == 1) {
        place(rbbi_session_following(session, a, &told), &told);
    } else if (sscanf(line, "preceding %u", &a) == 1) {
        place(rbbi_session_preceding(session, a, &told), &told);
    } else if (sscanf(line, "is %u", &a) == 1) {
        must(rbbi_session_is_boundary(session, a, &told), "is");
        puts(told ? "yes" : "no");
    } else if (strcmp(line, "first") == 0) {
        place(rbbi_session_first(session, &told), &told);
    } else if (strcmp(line, "last") == 0) {
        place(rbbi_session_last(session, &told), &told);
    } else if (strcmp(line, "next") == 0) {
        place(rbbi_session_next(session, &told), &told);
    } else if (strcmp(line, "previous") == 0) {
        place(rbbi_session_previous(session, &told), &told);
    } else if (strcmp(line, "current") == 0) {
        place(rbbi_session_current(session, &told), &told);
    } else if (strcmp(line, "status") == 0) {
        place(rbbi_session_status(session, &told), &told);
    } else if (strcmp(line, "statuses") == 0) {
        statuses(session);
    } else if (sscanf(line, "replace %u %u%n", &a, &b, &at) == 2) {
        char *insert = line[at] == ' ' ? line + at + 1 : line + at;
        edited(session, edit(session, a, b, insert));
    } else {
        fprintf(stderr, "driver: %s\n", line);
        exit(2);
    }
}

/* Compares what is listed after `from`, three at a time, with what `next` and `status` give. */
static void compare_forward(rbbi_session *session, uint32_t from, uint32_t to) {
    uint32_t places[3], statuses[3], resume = from, place, status;
    int answer = RBBI_ROOM, asked = rbbi_session_following(session, from, &place);
    while (answer == RBBI_ROOM) {
        size_t count;
        answer = rbbi_session_boundaries(session, resume, to, places, statuses, 3, &count, &resume);
        for (size_t i = 0; i < count; i++) {
            must(rbbi_session_status(session, &status), "status");
            same(asked == RBBI_OK && places[i] == place && statuses[i] == status, "boundaries");
            asked = rbbi_session_next(session, &place);
        }
        same(answer == RBBI_OK || (count == 3 && resume == places[2]), "resume");
    }
    same(answer == RBBI_OK && (asked == RBBI_DONE || place > to), "the end of boundaries");
}

/* The same backwards, without statuses. */
static void compare_back(rbbi_session *session, uint32_t from, uint32_t to) {
    uint32_t places[3], resume = from, place;
    int answer = RBBI_ROOM, asked = rbbi_session_preceding(session, from, &place);
    while (answer == RBBI_ROOM) {
        size_t count;
        answer = rbbi_session_boundaries_before(session, resume, to, places, NULL, 3, &count, &resume);
        for (size_t i = 0; i < count; i++) {
            same(asked == RBBI_OK && places[i] == place, "boundaries_before");
            asked = rbbi_session_previous(session, &place);
        }
    }
    same(answer == RBBI_OK && (asked == RBBI_DONE || place < to), "the end of boundaries_before");
}

/* Calls that serve no session with a filter say so, and leave the cursor. */
static void compare_refused(rbbi_session *session) {
    rbbi_session copy = RBBI_INIT;
    rbbi_change change = {0, 0, 0};
    uint32_t cursor, now, number;
    size_t count;
    must(rbbi_session_current(session, &cursor), "current");
    int refused[] = {
        rbbi_session_fork(session, &copy),
        rbbi_session_replace_changed(session, 0, 0, "a", 1, &change),
        rbbi_session_redraw(session, &change, &number, &number),
        rbbi_session_boundaries(session, 0, 9, NULL, NULL, 0, &count, &number),
        rbbi_session_boundaries_before(session, 9, 0, NULL, NULL, 0, &count, &number),
        rbbi_session_segment(session, 0, &number, &number, &number),
        rbbi_session_suppress(session, "a", 1, NULL),
    };
    for (size_t i = 0; i < sizeof refused / sizeof *refused; i++) {
        same(refused[i] == RBBI_FILTERED, "a call that serves no filter");
    }
    must(rbbi_session_current(session, &now), "current");
    same(now == cursor, "the cursor");
}

static void compare(rbbi_session *session, uint32_t from) {
    uint32_t cursor, now, begin, end, status, place = 0;
    if (filtered) {
        compare_refused(session);
        return;
    }
    must(rbbi_session_current(session, &cursor), "current");
    int answer = rbbi_session_segment(session, from, &begin, &end, &status);
    must(rbbi_session_current(session, &now), "current");
    same(now == cursor, "the cursor");
    same(answer == rbbi_session_following(session, from, &place), "segment");
    if (answer == RBBI_OK) {
        must(rbbi_session_status(session, &now), "status");
        same(end == place && now == status, "the end of the segment");
        must(rbbi_session_preceding(session, end, &place), "preceding");
        same(begin == place, "the start of the segment");
    }
    compare_forward(session, from, from + 40);
    compare_back(session, from + 40, from);
    must(rbbi_session_is_boundary(session, cursor, &now), "is");
}

/* Prints all counts of a tally, each asked for alone too. */
static void tell_counts(rbbi_tally *tally) {
    uint32_t all, number, statuses[64], counts[64];
    size_t count;
    must(rbbi_tally_segments(tally, &all), "segments");
    printf("segments %u\n", all);
    must(rbbi_tally_each(tally, statuses, counts, 64, &count), "each");
    for (size_t i = 0; i < count; i++) {
        must(rbbi_tally_count(tally, statuses[i], &number), "count");
        same(number == counts[i], "count");
        printf("%u %u\n", statuses[i], counts[i]);
    }
}

/* Performs the edits of a script. */
static void tally_script(rbbi_tally *tally, char *script) {
    uint32_t a, b;
    int at;
    tell_counts(tally);
    for (char *line = strtok(script, "\n"); line; line = strtok(NULL, "\n")) {
        if (sscanf(line, "replace %u %u%n", &a, &b, &at) != 2) {
            continue;
        }
        char *insert = line[at] == ' ' ? line + at + 1 : line + at;
        if (accepted(rbbi_tally_replace(tally, a, b, insert, strlen(insert)))) {
            puts("ok");
            tell_counts(tally);
        }
    }
}

static void play_script(rbbi_session *session, char *script) {
    uint32_t from = 0;
    for (char *line = strtok(script, "\n"); line; line = strtok(NULL, "\n")) {
        play(session, line);
        compare(session, from);
        from = (from + 1009) % 3001;
    }
}

int main(int count, char **words) {
    if (count < 5 || count > 7) {
        return 2;
    }
    int unit = strcmp(words[4], "chars") == 0 ? RBBI_CHARS
               : strcmp(words[4], "utf8") == 0 ? RBBI_UTF8
                                               : RBBI_UTF16;
    size_t length;
    char *rules = bytes_of(words[1], &length);
    rbbi_table table = RBBI_INIT, loaded = RBBI_INIT;
    rbbi_fault fault;
    if (rbbi_table_compile(&table, NULL, rules, length, 0, &fault) == RBBI_FAULT) {
        fprintf(stderr, "driver: %u:%u: %s\n", fault.line, fault.column, fault.name);
        return 2;
    }
    /* The table goes through a table file. */
    rbbi_table_write(&table, NULL, 0, &length);
    char *file = malloc(length);
    must(rbbi_table_write(&table, file, length, &length), "write");
    must(rbbi_table_load(&loaded, file, length, &fault), "load");
    rbbi_table_close(&table);
    free(file);
    char *text = bytes_of(words[2], &length);
    rbbi_session session = RBBI_INIT;
    rbbi_tally tally = RBBI_INIT;
    if (count != 6) {
        must(rbbi_session_open(&session, &loaded, text, length, unit), "open");
    } else {
        must(rbbi_tally_open(&tally, &loaded, text, length, unit), "open");
    }
    rbbi_table_close(&loaded);
    filtered = count == 7;
    if (filtered) {
        size_t size;
        char *filter = bytes_of(words[6], &size);
        must(strcmp(words[5], "--suppress") == 0 ? rbbi_session_suppress(&session, filter, size, &fault)
                                                 : rbbi_session_tailor(&session, filter, size, &fault),
             "filter");
        free(filter);
    }
    char *script = bytes_of(words[3], &length);
    if (count != 6) {
        play_script(&session, script);
    } else {
        tally_script(&tally, script);
    }
    rbbi_session_close(&session);
    rbbi_tally_close(&tally);
    free(rules);
    free(text);
    free(script);
    return 0;
}
