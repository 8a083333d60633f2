/*
 * Each allocation refused in turn: a call answers RBBI_MEMORY, leaves what there was, and does its work
 * when it is made again. And no question allocates. Linked with -Wl,--wrap=malloc,--wrap=realloc over
 * the static library.
 */
#include <rbbi.h>
#include <stdio.h>
#include <stdlib.h>
#include <string.h>

void *__real_malloc(size_t size);
void *__real_realloc(void *block, size_t size);

/* How many allocations there are up to the one that is refused; 0 after it. */
static long left;

/* How many were asked for. */
static long asked;

static int refused(void) {
    asked++;
    return left > 0 && --left == 0;
}

void *__wrap_malloc(size_t size) {
    return refused() ? NULL : __real_malloc(size);
}

void *__wrap_realloc(void *block, size_t size) {
    return refused() ? NULL : __real_realloc(block, size);
}

static int wrong;

/* What an answer is: done, want of memory, or wrong. */
static int is_done(int answer, int line) {
    if (answer != RBBI_OK && answer != RBBI_MEMORY) {
        printf("line %d: %d\n", line, answer);
        wrong = 1;
    }
    return answer == RBBI_OK;
}

/* Makes a call, and once more where memory was wanting: then no allocation is refused. */
#define DONE(call)                                                                                 \
    if (!is_done(call, __LINE__) && !is_done(call, __LINE__)) {                                    \
        wrong = 1;                                                                                 \
    }

/* How many segments have a status; 77 where the call is refused. */
static uint32_t count_of(rbbi_tally *tally, uint32_t status) {
    uint32_t count = 77;
    return rbbi_tally_count(tally, status, &count) == RBBI_OK ? count : 77;
}

static int place_of(rbbi_session *session, uint32_t from) {
    uint32_t place = 0;
    int answer = rbbi_session_following(session, from, &place);
    return answer == RBBI_OK ? (int)place : -answer;
}

/* How many allocations the questions at each 7th place of a session make: there are to be none. */
static long asked_by_questions(rbbi_session *session) {
    long before = asked;
    uint32_t number, length = 0, from, to, resume, room[9], other[9];
    size_t count;
    rbbi_session_length(session, &length);
    for (uint32_t at = 0; at <= length; at += 7) {
        rbbi_session_first(session, &number);
        rbbi_session_next(session, &number);
        rbbi_session_last(session, &number);
        rbbi_session_previous(session, &number);
        rbbi_session_following(session, at, &number);
        rbbi_session_preceding(session, at, &number);
        rbbi_session_is_boundary(session, at, &number);
        rbbi_session_current(session, &number);
        rbbi_session_status(session, &number);
        rbbi_session_statuses(session, room, 9, &count);
        rbbi_session_boundaries(session, at, length, room, other, 9, &count, &resume);
        rbbi_session_boundaries_before(session, at, 0, room, other, 9, &count, &resume);
        rbbi_session_segment(session, at, &from, &to, &number);
    }
    return asked - before;
}

/* The same of a tally. */
static long asked_by_counts(rbbi_tally *tally) {
    long before = asked;
    uint32_t number;
    rbbi_tally_segments(tally, &number);
    rbbi_tally_count(tally, 100, &number);
    return asked - before;
}

int main(void) {
    const char *rules = "[a-z]+{200}; [0-9]+([.][0-9]+)?{100}; \\p{X=Y}; .;";
    const uint16_t wide[] = {'.', 0xe9};
    char text[3000], insert[2000], file[1000];
    size_t length;
    memset(text, 'a', sizeof text);
    memset(insert, '1', sizeof insert);
    int most = 0;
    do {
        left = ++most;
        rbbi_files files = RBBI_INIT;
        rbbi_table table = RBBI_INIT, loaded = RBBI_INIT, other = RBBI_INIT;
        rbbi_session session = RBBI_INIT, copy = RBBI_INIT;
        DONE(rbbi_files_open(&files));
        DONE(rbbi_files_add(&files, "X", "0021 ; Y\n", 9, NULL));
        DONE(rbbi_table_compile(&table, &files, rules, strlen(rules), 0, NULL));
        DONE(rbbi_table_write(&table, file, sizeof file, &length));
        DONE(rbbi_table_load(&loaded, file, length, NULL));
        DONE(rbbi_table_share(&other, &loaded));
        DONE(rbbi_session_open(&session, &other, text, sizeof text, RBBI_UTF8));
        wrong |= place_of(&session, 5) != 3000;
        int answer = rbbi_session_replace(&session, 1000, 5, insert, sizeof insert);
        if (answer == RBBI_MEMORY) {
            wrong |= place_of(&session, 5) != 3000;
        }
        if (!is_done(answer, __LINE__)) {
            DONE(rbbi_session_replace(&session, 1000, 5, insert, sizeof insert));
        }
        wrong |= place_of(&session, 5) != 1000 || place_of(&session, 1000) != 3000;
        DONE(rbbi_session_fork(&session, &copy));
        wrong |= place_of(&copy, 5) != 1000 || place_of(&copy, 1000) != 3000;
        rbbi_session_close(&copy);
        rbbi_change change = {0, 0, 0};
        DONE(rbbi_session_replace_changed(&session, 1500, 500, insert, 500, &change));
        wrong |= change.from != 1500 || change.old_to != 2000 || change.new_to != 2000;
        DONE(rbbi_session_text(&session, 998, 1002, file, sizeof file, &length));
        wrong |= length != 4 || memcmp(file, "aa11", 4) != 0;
        DONE(rbbi_session_replace_utf16(&session, 0, 1, wide, 2, NULL));
        wrong |= place_of(&session, 0) != 1 || place_of(&session, 4) != 1002;
        wrong |= asked_by_questions(&session) != 0;
        uint64_t starts[2] = {77, 77}, ends[2] = {77, 77}, resume = 77;
        uint32_t greatest[2] = {77, 77};
        answer = rbbi_breaks(&other, text, sizeof text, 0, ends, greatest, 2, &length, &resume);
        if (answer == RBBI_MEMORY) {
            wrong |= ends[0] != 77 || greatest[0] != 77;
        }
        if (!is_done(answer, __LINE__)) {
            DONE(rbbi_breaks(&other, text, sizeof text, 0, ends, greatest, 2, &length, &resume));
        }
        wrong |= length != 1 || resume != 3000 || ends[0] != 3000 || greatest[0] != 200 || ends[1] != 77;
        DONE(rbbi_words_utf16(&other, wide, 2, 0, starts, ends, greatest, 2, &length, &resume));
        wrong |= length != 1 || resume != 2 || starts[0] != 1 || ends[0] != 2 || greatest[1] != 77;
        rbbi_scan scan = RBBI_INIT;
        DONE(rbbi_scan_open(&scan, &other, RBBI_UTF8, 0));
        for (int part = 0; part < 3; part++) {
            answer = rbbi_scan_feed(&scan, text + 1000 * part, 1000, part == 2);
            if (!is_done(answer, __LINE__)) {
                DONE(rbbi_scan_feed(&scan, text + 1000 * part, 1000, part == 2));
            }
            ends[0] = 77;
            answer = rbbi_scan_next(&scan, NULL, ends, NULL, 2, &length, &resume);
            if (answer == RBBI_MEMORY) {
                wrong |= length != 0 || ends[0] != 77;
                answer = rbbi_scan_next(&scan, NULL, ends, NULL, 2, &length, &resume);
            }
            wrong |= answer != (part == 2 ? RBBI_OK : RBBI_DONE) || length != (part == 2);
        }
        wrong |= ends[0] != 3000 || resume != 3000;
        rbbi_scan_close(&scan);
        rbbi_tally tally = RBBI_INIT;
        DONE(rbbi_tally_open(&tally, &other, text, sizeof text, RBBI_UTF8));
        wrong |= count_of(&tally, 200) != 1 || count_of(&tally, 100) != 0;
        answer = rbbi_tally_replace(&tally, 1000, 5, insert, sizeof insert);
        if (answer == RBBI_MEMORY) {
            wrong |= count_of(&tally, 200) != 1 || count_of(&tally, 100) != 0;
        }
        if (!is_done(answer, __LINE__)) {
            DONE(rbbi_tally_replace(&tally, 1000, 5, insert, sizeof insert));
        }
        wrong |= count_of(&tally, 200) != 2 || count_of(&tally, 100) != 1;
        uint32_t statuses[2] = {0, 0}, counts[2] = {0, 0};
        DONE(rbbi_tally_each(&tally, statuses, counts, 2, &length));
        wrong |= length != 2 || statuses[0] != 100 || counts[0] != 1 || counts[1] != 2;
        wrong |= asked_by_counts(&tally) != 0;
        rbbi_tally_close(&tally);
        DONE(rbbi_session_tailor(&session, "00E9;0061\n", 10, NULL));
        wrong |= place_of(&session, 1) != 1002 || asked_by_questions(&session) != 0;
        DONE(rbbi_session_open(&copy, &other, text, sizeof text, RBBI_UTF8));
        DONE(rbbi_session_replace(&copy, 4, 3, " 1 ", 3));
        DONE(rbbi_session_suppress(&copy, "1\n", 2, NULL));
        wrong |= place_of(&copy, 4) != 5 || place_of(&copy, 5) != 3000;
        wrong |= asked_by_questions(&copy) != 0;
        rbbi_session_close(&copy);
        rbbi_files_close(&files);
        rbbi_table_close(&table);
        rbbi_table_close(&loaded);
        rbbi_table_close(&other);
        rbbi_session_close(&session);
    } while (left == 0 && !wrong);
    printf("memory %s, %d allocations refused in turn\n", wrong ? "differs" : "is told", most - 1);
    return wrong;
}
