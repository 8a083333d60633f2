/*
 * The calls of include/rbbi.h over those that the crate rbbi_c exports.
 *
 * Contracts see a reference that C passes as one that isn't NULL, and a handle as one that nobody else
 * uses during the call. So what is done here, and nothing else: pointers that are NULL are refused,
 * threads that pass one table's handle take turns, also while the process forks, and the byte of a
 * fault in rules is counted. A `Memory` takes no bytes, and is passed as nothing.
 */
#include "rbbi.h"

#include <pthread.h>
#include <stdbool.h>
#include <string.h>

/* Where the proved side tells a fault. */
typedef struct {
    size_t label;
    uint32_t row, column, byte;
} told;

/* A segment as the proved side has it. */
typedef struct {
    uint32_t from, to, status;
} segment;

/* How many places were written, and the one that is told, as the proved side has them. */
typedef struct {
    size_t count, place;
} given;

uint32_t rbbi_c_properties(rbbi_files *);
uint32_t rbbi_c_properties_add(rbbi_files *, const uint8_t *, size_t, const uint8_t *, size_t,
                               told *, uint8_t *, size_t);
uint32_t rbbi_c_table_compile(rbbi_files *, const uint8_t *, size_t, bool, rbbi_table *, told *,
                              uint8_t *, size_t);
uint32_t rbbi_c_table_load(const uint8_t *, size_t, rbbi_table *, told *, uint8_t *, size_t);
uint32_t rbbi_c_table_named(const uint8_t *, size_t, rbbi_table *);
uint32_t rbbi_c_table_share(rbbi_table *, rbbi_table *);
uint32_t rbbi_c_table_write(rbbi_table *, uint8_t *, size_t, size_t *);
uint32_t rbbi_c_breaks(rbbi_table *, const uint8_t *, size_t, size_t, uint64_t *, size_t, uint32_t *,
                       size_t, given *);
uint32_t rbbi_c_breaks_utf16(rbbi_table *, const uint16_t *, size_t, size_t, uint64_t *, size_t,
                             uint32_t *, size_t, given *);
uint32_t rbbi_c_words(rbbi_table *, const uint8_t *, size_t, size_t, uint64_t *, size_t, uint64_t *,
                      size_t, uint32_t *, size_t, given *);
uint32_t rbbi_c_words_utf16(rbbi_table *, const uint16_t *, size_t, size_t, uint64_t *, size_t,
                            uint64_t *, size_t, uint32_t *, size_t, given *);
uint32_t rbbi_c_scan_open(rbbi_table *, uint32_t, bool, rbbi_scan *);
uint32_t rbbi_c_scan_feed(rbbi_scan *, const uint8_t *, size_t, bool);
uint32_t rbbi_c_scan_feed_utf16(rbbi_scan *, const uint16_t *, size_t, bool);
uint32_t rbbi_c_scan_next(rbbi_scan *, uint64_t *, size_t, uint64_t *, size_t, uint32_t *, size_t,
                          given *);
uint32_t rbbi_c_open(rbbi_table *, const uint8_t *, size_t, uint32_t, rbbi_session *);
uint32_t rbbi_c_open_utf16(rbbi_table *, const uint16_t *, size_t, uint32_t, rbbi_session *,
                           uint32_t *);
uint32_t rbbi_c_fork(rbbi_session *, rbbi_session *);
uint32_t rbbi_c_suppress(rbbi_session *, const uint8_t *, size_t, told *, uint8_t *, size_t);
uint32_t rbbi_c_tailor(rbbi_session *, const uint8_t *, size_t, told *, uint8_t *, size_t);
uint32_t rbbi_c_replace(rbbi_session *, uint32_t, uint32_t, const uint8_t *, size_t);
uint32_t rbbi_c_replace_utf16(rbbi_session *, uint32_t, uint32_t, const uint16_t *, size_t,
                              uint32_t *);
uint32_t rbbi_c_replace_changed(rbbi_session *, uint32_t, uint32_t, const uint8_t *, size_t,
                                rbbi_change *);
uint32_t rbbi_c_part(rbbi_session *, uint32_t, uint32_t, uint8_t *, size_t, size_t *);
uint32_t rbbi_c_boundaries(rbbi_session *, uint32_t, uint32_t, uint32_t *, size_t, uint32_t *,
                           size_t, size_t *, uint32_t *);
uint32_t rbbi_c_boundaries_before(rbbi_session *, uint32_t, uint32_t, uint32_t *, size_t,
                                  uint32_t *, size_t, size_t *, uint32_t *);
uint32_t rbbi_c_segment(rbbi_session *, uint32_t, segment *);
uint32_t rbbi_c_length(rbbi_session *, uint32_t *);
uint32_t rbbi_c_statuses(rbbi_session *, uint32_t *, size_t, size_t *);
uint32_t rbbi_c_first(rbbi_session *, uint32_t *);
uint32_t rbbi_c_last(rbbi_session *, uint32_t *);
uint32_t rbbi_c_next(rbbi_session *, uint32_t *);
uint32_t rbbi_c_previous(rbbi_session *, uint32_t *);
uint32_t rbbi_c_following(rbbi_session *, uint32_t, uint32_t *);
uint32_t rbbi_c_preceding(rbbi_session *, uint32_t, uint32_t *);
uint32_t rbbi_c_is_boundary(rbbi_session *, uint32_t, uint32_t *);
uint32_t rbbi_c_current(rbbi_session *, uint32_t *);
uint32_t rbbi_c_status(rbbi_session *, uint32_t *);
uint32_t rbbi_c_tally_open(rbbi_table *, const uint8_t *, size_t, uint32_t, rbbi_tally *);
uint32_t rbbi_c_tally_replace(rbbi_tally *, uint32_t, uint32_t, const uint8_t *, size_t);
uint32_t rbbi_c_tally_segments(rbbi_tally *, uint32_t *);
uint32_t rbbi_c_tally_count(rbbi_tally *, uint32_t, uint32_t *);
uint32_t rbbi_c_tally_each(rbbi_tally *, uint32_t *, size_t, uint32_t *, size_t, size_t *);
void rbbi_c_close(void *);

/* The version of Unicode of the built-in tables, and what each fault is in a sentence, as
   tools/make/c-texts prints them; the last fault has no name. */
extern const char rbbi_built_in_unicode[];
extern const struct rbbi_built_in_fault {
    const char *name, *sentence;
} rbbi_built_in_faults[];

/* A slice of no items needs a pointer too. */
static uint32_t nothing[1];

static const uint8_t *from(const void *bytes) {
    return bytes ? bytes : (const uint8_t *)nothing;
}

const char *rbbi_message(int answer) {
    static const char *const messages[] = {
        "done",
        "there is no such boundary",
        "a pointer is NULL",
        "the handle holds nothing of this kind, or a handle to be opened holds something",
        "the unit is none of the three",
        "the edit reaches past the end of the text",
        "the edit begins or ends inside of a character",
        "the text or the file is too long",
        "the bytes are not UTF-8",
        "memory ran out",
        "the buffer is too small",
        "there is a fault in the rules, the property file, the table file or the filter's file",
        "the library has no table of this name",
        "a surrogate of a text in UTF-16 is in no pair",
        "the session has a filter, which this call doesn't serve",
    };
    if (answer < 0 || answer >= (int)(sizeof messages / sizeof *messages)) {
        return "this is no answer of rbbi";
    }
    return messages[answer];
}

const char *rbbi_fault_message(const rbbi_fault *fault) {
    const struct rbbi_built_in_fault *found = rbbi_built_in_faults;
    while (fault && found->name && strncmp(found->name, fault->name, sizeof fault->name) != 0) {
        found++;
    }
    return fault && found->name ? found->sentence : "this is no fault of rbbi";
}

const char *rbbi_version(void) {
    return RBBI_VERSION;
}

const char *rbbi_unicode_version(void) {
    return rbbi_built_in_unicode;
}

static pthread_mutex_t turn = PTHREAD_MUTEX_INITIALIZER;

static void begin_turn(void) {
    pthread_mutex_lock(&turn);
}

static void end_turn(void) {
    pthread_mutex_unlock(&turn);
}

/* A process forks between two turns. In the child a turn of another thread would have no end. */
static void fork_between_turns(void) {
    pthread_atfork(begin_turn, end_turn, end_turn);
}

/* Makes `other` one more handle of the table. The proved side takes the table out of its handle for
   this, and puts it back; meanwhile no other thread may look into the handle. */
static int share(rbbi_table *table, rbbi_table *other) {
    static pthread_once_t once = PTHREAD_ONCE_INIT;
    pthread_once(&once, fork_between_turns);
    begin_turn();
    uint32_t answer = rbbi_c_table_share(table, other);
    end_turn();
    return (int)answer;
}

/* The byte at a line and a column of rules, each from 1. A line ends at LF, and a U+FEFF at the start
   isn't counted. */
static uint32_t byte_at(const uint8_t *rules, size_t length, uint32_t line, uint32_t column) {
    size_t at = length >= 3 && memcmp(rules, "\xEF\xBB\xBF", 3) == 0 ? 3 : 0;
    while (at < length && line > 1) {
        line -= rules[at++] == '\n';
    }
    while (at < length && column > 1) {
        at++;
        column -= at == length || (rules[at] & 0xC0) != 0x80;
    }
    return (uint32_t)at;
}

/* Passes a fault on as its name, ended by a zero, and its place. */
static int pass(uint32_t answer, const told *at, rbbi_fault *fault) {
    if (answer == RBBI_FAULT && fault) {
        size_t last = sizeof fault->name - 1;
        fault->name[at->label < last ? at->label : last] = 0;
        fault->line = at->row;
        fault->column = at->column;
        fault->byte = at->byte;
    }
    return (int)answer;
}

int rbbi_files_open(rbbi_files *files) {
    return files ? (int)rbbi_c_properties(files) : RBBI_NULL;
}

int rbbi_files_add(rbbi_files *files, const char *property, const void *bytes, size_t length,
                   rbbi_fault *fault) {
    if (!files || !property || (!bytes && length)) {
        return RBBI_NULL;
    }
    told at = {0, 0, 0, 0};
    rbbi_fault other;
    uint8_t *name = (uint8_t *)(fault ? fault->name : other.name);
    return pass(rbbi_c_properties_add(files, (const uint8_t *)property, strlen(property),
                                      from(bytes), length, &at, name, sizeof other.name - 1),
                &at, fault);
}

void rbbi_files_close(rbbi_files *files) {
    if (files) {
        rbbi_c_close(files);
    }
}

int rbbi_table_compile(rbbi_table *table, rbbi_files *files, const void *rules, size_t length,
                       int ignore_dictionary, rbbi_fault *fault) {
    if (!table || (!rules && length)) {
        return RBBI_NULL;
    }
    told at = {0, 0, 0, 0};
    rbbi_fault other;
    rbbi_files none = RBBI_INIT;
    uint8_t *name = (uint8_t *)(fault ? fault->name : other.name);
    uint32_t answer =
        rbbi_c_table_compile(files ? files : &none, from(rules), length, ignore_dictionary != 0,
                             table, &at, name, sizeof other.name - 1);
    if (at.row > 0 && at.column > 0) {
        at.byte = byte_at(from(rules), length, at.row, at.column);
    }
    return pass(answer, &at, fault);
}

int rbbi_table_load(rbbi_table *table, const void *bytes, size_t length, rbbi_fault *fault) {
    if (!table || (!bytes && length)) {
        return RBBI_NULL;
    }
    told at = {0, 0, 0, 0};
    rbbi_fault other;
    uint8_t *name = (uint8_t *)(fault ? fault->name : other.name);
    return pass(rbbi_c_table_load(from(bytes), length, table, &at, name, sizeof other.name - 1),
                &at, fault);
}

int rbbi_table_named(rbbi_table *table, const char *name) {
    if (!table || !name) {
        return RBBI_NULL;
    }
    return (int)rbbi_c_table_named((const uint8_t *)name, strlen(name), table);
}

int rbbi_table_share(rbbi_table *other, rbbi_table *table) {
    return other && table ? share(table, other) : RBBI_NULL;
}

int rbbi_table_write(rbbi_table *table, void *room, size_t size, size_t *length) {
    if (!table || (!room && size) || !length) {
        return RBBI_NULL;
    }
    rbbi_table own = RBBI_INIT;
    int answer = share(table, &own);
    if (answer == RBBI_OK) {
        answer = (int)rbbi_c_table_write(&own, room ? room : (void *)nothing, size, length);
        rbbi_c_close(&own);
    }
    return answer;
}

void rbbi_table_close(rbbi_table *table) {
    if (table) {
        rbbi_c_close(table);
    }
}

/* No statuses are wanted where C passes no room for them, and no places. */
static uint32_t none[1];
static uint64_t nowhere[1];

/* Asks for boundaries, or with room for starts for words, of a text in UTF-8 or of units of UTF-16. */
static int scan(rbbi_table *table, const char *text, const uint16_t *units, size_t length,
                uint64_t first, uint64_t *starts, uint64_t *ends, uint32_t *statuses, size_t room,
                size_t *count, uint64_t *resume, bool words) {
    given told = {*count, *resume};
    rbbi_table own = RBBI_INIT;
    int answer = share(table, &own);
    size_t wanted = statuses ? room : 0;
    starts = starts ? starts : nowhere;
    ends = ends ? ends : nowhere;
    statuses = statuses ? statuses : none;
    if (answer == RBBI_OK) {
        answer = (int)(units ? words ? rbbi_c_words_utf16(&own, units, length, first, starts, room, ends,
                                                          room, statuses, wanted, &told)
                                     : rbbi_c_breaks_utf16(&own, units, length, first, ends, room,
                                                           statuses, wanted, &told)
                       : words ? rbbi_c_words(&own, from(text), length, first, starts, room, ends, room,
                                              statuses, wanted, &told)
                               : rbbi_c_breaks(&own, from(text), length, first, ends, room, statuses,
                                               wanted, &told));
        rbbi_c_close(&own);
        *count = told.count;
        *resume = told.place;
    }
    return answer;
}

int rbbi_breaks(rbbi_table *table, const char *text, size_t length, uint64_t from,
                uint64_t *places, uint32_t *statuses, size_t room, size_t *count,
                uint64_t *resume) {
    if (!table || (!text && length) || (!places && room) || !count || !resume) {
        return RBBI_NULL;
    }
    return scan(table, text, NULL, length, from, NULL, places, statuses, room, count, resume, false);
}

int rbbi_breaks_utf16(rbbi_table *table, const uint16_t *text, size_t length, uint64_t from,
                      uint64_t *places, uint32_t *statuses, size_t room, size_t *count,
                      uint64_t *resume) {
    if (!table || (!text && length) || (!places && room) || !count || !resume) {
        return RBBI_NULL;
    }
    return scan(table, NULL, text ? text : (const uint16_t *)nothing, length, from, NULL, places,
                statuses, room, count, resume, false);
}

int rbbi_words(rbbi_table *table, const char *text, size_t length, uint64_t from, uint64_t *starts,
               uint64_t *ends, uint32_t *statuses, size_t room, size_t *count, uint64_t *resume) {
    if (!table || (!text && length) || (!(starts && ends) && room) || !count || !resume) {
        return RBBI_NULL;
    }
    return scan(table, text, NULL, length, from, starts, ends, statuses, room, count, resume, true);
}

int rbbi_words_utf16(rbbi_table *table, const uint16_t *text, size_t length, uint64_t from,
                     uint64_t *starts, uint64_t *ends, uint32_t *statuses, size_t room,
                     size_t *count, uint64_t *resume) {
    if (!table || (!text && length) || (!(starts && ends) && room) || !count || !resume) {
        return RBBI_NULL;
    }
    return scan(table, NULL, text ? text : (const uint16_t *)nothing, length, from, starts, ends,
                statuses, room, count, resume, true);
}

int rbbi_scan_open(rbbi_scan *scan, rbbi_table *table, int unit, int only_words) {
    if (!scan || !table) {
        return RBBI_NULL;
    }
    rbbi_table own = RBBI_INIT;
    int answer = share(table, &own);
    if (answer == RBBI_OK) {
        answer = (int)rbbi_c_scan_open(&own, (uint32_t)unit, only_words != 0, scan);
        rbbi_c_close(&own);
    }
    return answer;
}

int rbbi_scan_feed(rbbi_scan *scan, const char *piece, size_t length, int is_last) {
    if (!scan || (!piece && length)) {
        return RBBI_NULL;
    }
    return (int)rbbi_c_scan_feed(scan, from(piece), length, is_last != 0);
}

int rbbi_scan_feed_utf16(rbbi_scan *scan, const uint16_t *piece, size_t length, int is_last) {
    if (!scan || (!piece && length)) {
        return RBBI_NULL;
    }
    return (int)rbbi_c_scan_feed_utf16(scan, piece ? piece : (const uint16_t *)nothing, length,
                                       is_last != 0);
}

int rbbi_scan_next(rbbi_scan *scan, uint64_t *starts, uint64_t *ends, uint32_t *statuses,
                   size_t room, size_t *count, uint64_t *place) {
    if (!scan || (!ends && room) || !count || !place) {
        return RBBI_NULL;
    }
    given told = {*count, *place};
    int answer = (int)rbbi_c_scan_next(scan, starts ? starts : nowhere, starts ? room : 0,
                                       ends ? ends : nowhere, room, statuses ? statuses : none,
                                       statuses ? room : 0, &told);
    *count = told.count;
    *place = told.place;
    return answer;
}

void rbbi_scan_close(rbbi_scan *scan) {
    if (scan) {
        rbbi_c_close(scan);
    }
}

int rbbi_session_open(rbbi_session *session, rbbi_table *table, const char *text, size_t length,
                      int unit) {
    if (!session || !table || (!text && length)) {
        return RBBI_NULL;
    }
    rbbi_table own = RBBI_INIT;
    int answer = share(table, &own);
    if (answer == RBBI_OK) {
        answer = (int)rbbi_c_open(&own, from(text), length, (uint32_t)unit, session);
        rbbi_c_close(&own);
    }
    return answer;
}

int rbbi_session_open_utf16(rbbi_session *session, rbbi_table *table, const uint16_t *text,
                            size_t length, int unit, uint32_t *lone) {
    if (!session || !table || (!text && length)) {
        return RBBI_NULL;
    }
    uint32_t other = 0;
    rbbi_table own = RBBI_INIT;
    int answer = share(table, &own);
    if (answer == RBBI_OK) {
        answer = (int)rbbi_c_open_utf16(&own, text ? text : (const uint16_t *)nothing, length,
                                        (uint32_t)unit, session, lone ? lone : &other);
        rbbi_c_close(&own);
    }
    return answer;
}

int rbbi_session_fork(rbbi_session *session, rbbi_session *copy) {
    return session && copy ? (int)rbbi_c_fork(session, copy) : RBBI_NULL;
}

void rbbi_session_close(rbbi_session *session) {
    if (session) {
        rbbi_c_close(session);
    }
}

int rbbi_session_suppress(rbbi_session *session, const void *list, size_t length,
                          rbbi_fault *fault) {
    if (!session || (!list && length)) {
        return RBBI_NULL;
    }
    told at = {0, 0, 0, 0};
    rbbi_fault other;
    uint8_t *name = (uint8_t *)(fault ? fault->name : other.name);
    return pass(rbbi_c_suppress(session, from(list), length, &at, name, sizeof other.name - 1), &at,
                fault);
}

int rbbi_session_tailor(rbbi_session *session, const void *pairs, size_t length,
                        rbbi_fault *fault) {
    if (!session || (!pairs && length)) {
        return RBBI_NULL;
    }
    told at = {0, 0, 0, 0};
    rbbi_fault other;
    uint8_t *name = (uint8_t *)(fault ? fault->name : other.name);
    return pass(rbbi_c_tailor(session, from(pairs), length, &at, name, sizeof other.name - 1), &at,
                fault);
}

int rbbi_session_replace(rbbi_session *session, uint32_t at, uint32_t remove, const char *insert,
                         size_t length) {
    if (!session || (!insert && length)) {
        return RBBI_NULL;
    }
    return (int)rbbi_c_replace(session, at, remove, from(insert), length);
}

int rbbi_session_replace_changed(rbbi_session *session, uint32_t at, uint32_t remove,
                                 const char *insert, size_t length, rbbi_change *change) {
    if (!session || (!insert && length) || !change) {
        return RBBI_NULL;
    }
    return (int)rbbi_c_replace_changed(session, at, remove, from(insert), length, change);
}

int rbbi_session_replace_utf16(rbbi_session *session, uint32_t at, uint32_t remove,
                               const uint16_t *insert, size_t length, uint32_t *lone) {
    if (!session || (!insert && length)) {
        return RBBI_NULL;
    }
    uint32_t other = 0;
    return (int)rbbi_c_replace_utf16(session, at, remove,
                                     insert ? insert : (const uint16_t *)nothing, length,
                                     lone ? lone : &other);
}

int rbbi_session_text(rbbi_session *session, uint32_t from, uint32_t to, char *room, size_t size,
                      size_t *length) {
    if (!session || (!room && size) || !length) {
        return RBBI_NULL;
    }
    return (int)rbbi_c_part(session, from, to, room ? (uint8_t *)room : (uint8_t *)nothing, size,
                            length);
}

int rbbi_session_length(rbbi_session *session, uint32_t *length) {
    return session && length ? (int)rbbi_c_length(session, length) : RBBI_NULL;
}

int rbbi_session_first(rbbi_session *session, uint32_t *place) {
    return session && place ? (int)rbbi_c_first(session, place) : RBBI_NULL;
}

int rbbi_session_last(rbbi_session *session, uint32_t *place) {
    return session && place ? (int)rbbi_c_last(session, place) : RBBI_NULL;
}

int rbbi_session_next(rbbi_session *session, uint32_t *place) {
    return session && place ? (int)rbbi_c_next(session, place) : RBBI_NULL;
}

int rbbi_session_previous(rbbi_session *session, uint32_t *place) {
    return session && place ? (int)rbbi_c_previous(session, place) : RBBI_NULL;
}

int rbbi_session_following(rbbi_session *session, uint32_t from, uint32_t *place) {
    return session && place ? (int)rbbi_c_following(session, from, place) : RBBI_NULL;
}

int rbbi_session_preceding(rbbi_session *session, uint32_t from, uint32_t *place) {
    return session && place ? (int)rbbi_c_preceding(session, from, place) : RBBI_NULL;
}

int rbbi_session_is_boundary(rbbi_session *session, uint32_t at, uint32_t *is) {
    return session && is ? (int)rbbi_c_is_boundary(session, at, is) : RBBI_NULL;
}

int rbbi_session_current(rbbi_session *session, uint32_t *place) {
    return session && place ? (int)rbbi_c_current(session, place) : RBBI_NULL;
}

int rbbi_session_status(rbbi_session *session, uint32_t *status) {
    return session && status ? (int)rbbi_c_status(session, status) : RBBI_NULL;
}

int rbbi_session_statuses(rbbi_session *session, uint32_t *room, size_t size, size_t *count) {
    if (!session || (!room && size) || !count) {
        return RBBI_NULL;
    }
    return (int)rbbi_c_statuses(session, room ? room : nothing, size, count);
}

int rbbi_session_boundaries(rbbi_session *session, uint32_t from, uint32_t to, uint32_t *places,
                            uint32_t *statuses, size_t room, size_t *count, uint32_t *resume) {
    if (!session || (!places && room) || !count || !resume) {
        return RBBI_NULL;
    }
    return (int)rbbi_c_boundaries(session, from, to, places ? places : nothing, room,
                                  statuses ? statuses : none, statuses ? room : 0, count, resume);
}

int rbbi_session_boundaries_before(rbbi_session *session, uint32_t from, uint32_t to,
                                   uint32_t *places, uint32_t *statuses, size_t room,
                                   size_t *count, uint32_t *resume) {
    if (!session || (!places && room) || !count || !resume) {
        return RBBI_NULL;
    }
    return (int)rbbi_c_boundaries_before(session, from, to, places ? places : nothing, room,
                                         statuses ? statuses : none, statuses ? room : 0, count,
                                         resume);
}

int rbbi_session_redraw(rbbi_session *session, const rbbi_change *change, uint32_t *from,
                        uint32_t *to) {
    uint32_t start = 0, end = 0, resume;
    size_t count;
    if (!session || !change || !from || !to) {
        return RBBI_NULL;
    }
    int answer = rbbi_session_boundaries_before(session, change->from, 0, &start, NULL, 1, &count,
                                                &resume);
    if (answer != RBBI_OK && answer != RBBI_ROOM) {
        return answer;
    }
    answer = rbbi_session_boundaries(session, change->new_to, UINT32_MAX, &end, NULL, 1, &count,
                                     &resume);
    if (answer == RBBI_OK && !count) {
        answer = rbbi_session_length(session, &end);
    }
    if (answer != RBBI_OK && answer != RBBI_ROOM) {
        return answer;
    }
    *from = start;
    *to = end;
    return RBBI_OK;
}

int rbbi_session_segment(rbbi_session *session, uint32_t at, uint32_t *from, uint32_t *to,
                         uint32_t *status) {
    if (!session || !from || !to || !status) {
        return RBBI_NULL;
    }
    segment found = {0, 0, 0};
    uint32_t answer = rbbi_c_segment(session, at, &found);
    if (answer == RBBI_OK) {
        *from = found.from;
        *to = found.to;
        *status = found.status;
    }
    return (int)answer;
}

int rbbi_tally_open(rbbi_tally *tally, rbbi_table *table, const char *text, size_t length,
                    int unit) {
    if (!tally || !table || (!text && length)) {
        return RBBI_NULL;
    }
    rbbi_table own = RBBI_INIT;
    int answer = share(table, &own);
    if (answer == RBBI_OK) {
        answer = (int)rbbi_c_tally_open(&own, from(text), length, (uint32_t)unit, tally);
        rbbi_c_close(&own);
    }
    return answer;
}

void rbbi_tally_close(rbbi_tally *tally) {
    if (tally) {
        rbbi_c_close(tally);
    }
}

int rbbi_tally_replace(rbbi_tally *tally, uint32_t at, uint32_t remove, const char *insert,
                       size_t length) {
    if (!tally || (!insert && length)) {
        return RBBI_NULL;
    }
    return (int)rbbi_c_tally_replace(tally, at, remove, from(insert), length);
}

int rbbi_tally_segments(rbbi_tally *tally, uint32_t *count) {
    return tally && count ? (int)rbbi_c_tally_segments(tally, count) : RBBI_NULL;
}

int rbbi_tally_count(rbbi_tally *tally, uint32_t status, uint32_t *count) {
    return tally && count ? (int)rbbi_c_tally_count(tally, status, count) : RBBI_NULL;
}

int rbbi_tally_each(rbbi_tally *tally, uint32_t *statuses, uint32_t *counts, size_t room,
                    size_t *count) {
    if (!tally || (!(statuses && counts) && room) || !count) {
        return RBBI_NULL;
    }
    return (int)rbbi_c_tally_each(tally, room ? statuses : nothing, room, room ? counts : none,
                                  room, count);
}
