/*
 * rbbi: text boundaries (characters, words, sentences, lines) by break rules, also while the text
 * is edited. The engine is proved; docs/c.md is an introduction.
 *
 * HANDLES. A table, a session, a tally, a scan and a list of property files are each held by a
 * handle: a struct of one pointer that you own, on the stack or in a struct of yours. A handle
 * begins as all zero:
 *
 *     rbbi_table table = RBBI_INIT;
 *
 * A call that opens fills an empty handle. If the handle isn't empty, the call answers RBBI_HANDLE
 * and leaves it as it is. The close calls free what a handle holds and make it all zero again;
 * closing an empty handle does nothing. No call can notice these mistakes: passing the address of a
 * struct that was never set, using or closing two copies of a handle, writing to what is inside,
 * and passing one address for two parameters.
 *
 * OWNERSHIP. A session, a tally or a scan keeps the table that it was opened with: tables are
 * counted. So a table's handle may be closed while they use the table, in any order. Texts, rules,
 * files and names that you pass are copied or read during the call, and stay yours. Only handles
 * have to be closed; nothing else that you receive has to be freed.
 *
 * THREADS. Several threads may pass one table's handle to rbbi_table_share, rbbi_table_write,
 * rbbi_breaks, rbbi_words and the calls that open a session, a tally or a scan at once: nothing
 * changes a table. These calls take turns, under a lock that is the library's only state, just to
 * count one more owner. All other calls need their handles to themselves: one thread at a time uses
 * a session, a tally, a scan or a list of property files, and no thread uses a handle while another
 * opens or closes it. Sessions, tallies and scans of one table may be used side by side. Handles
 * may move from thread to thread, under a lock or when a thread starts or ends. A process may fork
 * while other threads take turns: in the child a table's handle is as usable as before.
 *
 * UNITS. All places and lengths of a session or a tally count the unit that it was opened in: bytes
 * of UTF-8, 16-bit units of UTF-16, or characters (code points). They begin at 0. The text of a
 * session or a tally has at most 16,777,216 characters.
 *
 * ANSWERS. Each call but the close calls returns an int: RBBI_OK, RBBI_DONE, or an error. An error
 * leaves every handle and every number as it was, with four exceptions: RBBI_FAULT writes the
 * fault, RBBI_LONE the number of the surrogate, RBBI_ROOM the length and as much as fits, and
 * rbbi_breaks, rbbi_words and rbbi_scan_next write what they found. Room past what is written stays
 * as it was. No call ends the process, writes or reads a file, or waits, but for the turns above.
 * Opening, filters, forking, editing, compiling, loading, writing, rbbi_session_text,
 * rbbi_tally_each, rbbi_breaks, rbbi_words and the calls on a scan allocate memory. Other questions
 * don't. That isn't proved: reading the code shows it.
 */
#ifndef RBBI_H
#define RBBI_H

#include <stddef.h>
#include <stdint.h>

#ifdef __cplusplus
extern "C" {
#endif

/* The version of this header: new calls raise its second number, changed ones its first. */
#define RBBI_VERSION "2.6.0"

/* A list of property files, a table, a session, a tally and a scan. */
typedef struct rbbi_files {
    void *held;
} rbbi_files;

typedef struct rbbi_table {
    void *held;
} rbbi_table;

typedef struct rbbi_session {
    void *held;
} rbbi_session;

typedef struct rbbi_tally {
    void *held;
} rbbi_tally;

typedef struct rbbi_scan {
    void *held;
} rbbi_scan;

/* A handle that holds nothing. */
/* clang-format off */
#define RBBI_INIT { NULL }
/* clang-format on */

/* What calls return. */
enum {
    RBBI_OK = 0,       /* done */
    RBBI_DONE = 1,     /* there is no such boundary, and the number isn't written; of a scan: what
                          comes next depends on what isn't fed */
    RBBI_NULL = 2,     /* a pointer is NULL that must not be */
    RBBI_HANDLE = 3,   /* the handle is empty or of another kind; of a call that opens: it isn't
                          empty */
    RBBI_UNIT = 4,     /* the unit is none of the three; of a scan: it isn't the text's */
    RBBI_OUTSIDE = 5,  /* the edit reaches past the end of the text; of a scan: the last piece was
                          fed before */
    RBBI_INSIDE = 6,   /* the edit begins or ends inside a character */
    RBBI_TOO_LONG = 7, /* a text would have more than 16,777,216 characters; a text, a table or a
                          property file has more than 100,663,296 bytes, a rule file more than
                          1,048,576, or a file of a filter more than 65,536 */
    RBBI_NOT_UTF8 = 8, /* the bytes of a text or a name are not UTF-8 */
    RBBI_MEMORY = 9,   /* memory ran out */
    RBBI_ROOM = 10,    /* the buffer is too small; a prefix and the length are written */
    RBBI_FAULT = 11,   /* rules, a property file, a table file or a file of a filter have a fault,
                          which is written */
    RBBI_NAME = 12,    /* the library has no table of this name */
    RBBI_LONE = 13,    /* a text in UTF-16 has a surrogate that is in no pair, whose number is
                          written */
    RBBI_FILTERED = 14 /* the session has a filter, which this call doesn't serve */
};

/* The units of places, numbers and lengths. */
enum {
    RBBI_CHARS = 0, /* characters: code points */
    RBBI_UTF8 = 1,  /* bytes of UTF-8 */
    RBBI_UTF16 = 2  /* 16-bit units of UTF-16 */
};

/* A fault of rules, a property file, a table file or a file of a filter. docs/rules.md and
   docs/formats.md have all names, and rbbi_fault_message gives a sentence for each. */
typedef struct rbbi_fault {
    char name[40];   /* its name, such as "UnknownProperty", ended by a zero */
    uint32_t line;   /* its line, from 1, or 0 if it has none */
    uint32_t column; /* its column, in characters from 1, or 0 if it has none */
    uint32_t byte;   /* its byte, from 0, or UINT32_MAX if it has none; of rules, the byte at the
                        line and column */
} rbbi_fault;

/* What an edit changed: a range of the old and of the new text, in the session's unit. */
typedef struct rbbi_change {
    uint32_t from;   /* where it begins, in both texts */
    uint32_t old_to; /* where it ends in the old text */
    uint32_t new_to; /* where it ends in the new text */
} rbbi_change;

/* A sentence that describes an answer. */
const char *rbbi_message(int answer);

/* A sentence that describes a fault, by its name, as "this quote isn't closed in its line". */
const char *rbbi_fault_message(const rbbi_fault *fault);

/* The version of the library, as RBBI_VERSION is that of the header. */
const char *rbbi_version(void);

/* The version of Unicode whose data is in the library, as "18.0.0". */
const char *rbbi_unicode_version(void);

/* ---- property files: what \p{NAME=VALUE} of rules stands for, beside what is built in ---- */

/* Starts a list of property files. */
int rbbi_files_open(rbbi_files *files);

/* Adds the rows of a file in the form of the Unicode Character Database under a property name, such
   as "WB". RBBI_FAULT: "NotUtf8" with the byte, or "BadRow" with the line. `fault` may be NULL. */
int rbbi_files_add(rbbi_files *files, const char *property, const void *bytes, size_t length,
                   rbbi_fault *fault);

void rbbi_files_close(rbbi_files *files);

/* ---- tables ---- */

/* Compiles the rules of a rule file in UTF-8. `files` may be NULL: then there are no property
   files. A property with a value and without a file is that of Unicode 18.0, if docs/rules.md lists
   it. If `ignore_dictionary` isn't 0, $dictionary may be assigned. RBBI_FAULT: the first fault with
   its place, or without if the table would be too large. `fault` may be NULL. */
int rbbi_table_compile(rbbi_table *table, rbbi_files *files, const void *rules, size_t length,
                       int ignore_dictionary, rbbi_fault *fault);

/* Loads the table of a table file. RBBI_FAULT: the first fault, with its byte if it has one.
   `fault` may be NULL. A damaged file is refused or is a valid table. */
int rbbi_table_load(rbbi_table *table, const void *bytes, size_t length, rbbi_fault *fault);

/* Loads a built-in table: "grapheme", "word" or "sentence" by UAX #29 of Unicode 18.0, "line" by
   the rules of UAX #14 of 17.0 over the data of 18.0, or lines as CSS tailors them: "line-strict",
   which is "line", "line-normal" and "line-loose", and for Chinese and Japanese "line-cj",
   "line-normal-cj" and "line-loose-cj". Statuses: of a word, that of its last character that has a
   kind, as marks and connectors have none: 100 a digit, 200 a letter, 300 kana, 400 an ideograph, 0
   any other; of a sentence 0 if a terminator ends it, else 100; of a line 100 if it ends in a
   character after which it must be broken, such as LF, else 0, also at the end of the text; of a
   grapheme 0. */
int rbbi_table_named(rbbi_table *table, const char *name);

/* Makes `other` another handle of the table. */
int rbbi_table_share(rbbi_table *other, rbbi_table *table);

/* Writes the table file into `room`, of `size` bytes, and its length to `length`. RBBI_ROOM: the
   file is longer. `room` may be NULL if `size` is 0. */
int rbbi_table_write(rbbi_table *table, void *room, size_t size, size_t *length);

void rbbi_table_close(rbbi_table *table);

/* ---- a text that nobody edits: its boundaries in one call. The text stays where it is, and
   nothing is opened or closed. Places have 64 bits and count bytes of UTF-8 or units of UTF-16,
   from 0; the text may have any length ---- */

/* Writes the boundaries after `from` of a text in UTF-8 of `length` bytes, in order, into `places`,
   and the largest status of each into `statuses`, each of `room` numbers, and how many were written
   to `count`. `from` is a boundary, such as 0 or one that an earlier call wrote; from another place
   where a character begins, the boundaries are those of the text that begins there. `resume` is the
   last boundary found, or `from` if there was none: what is left is what a call from `resume` on
   writes.
   RBBI_OK: the last boundary is written, which is the text's end. RBBI_ROOM: there are more.
   RBBI_OUTSIDE: `from` lies past the end; nothing is written. The next three come after all
   boundaries before the search that they stop, which are written and counted. RBBI_NOT_UTF8: the
   search reads bytes that aren't UTF-8; `resume` is the first of them. RBBI_TOO_LONG: it reads more
   than 16,777,216 characters. RBBI_MEMORY: memory ran out; a call from `resume` on tries again.
   `text` may be NULL if `length` is 0, `statuses` may be NULL, and if `room` is 0, `places` too.
   Memory is taken within the call and freed: a little, and more by rules with look-ahead or where a
   search reads past 1,024 characters. */
int rbbi_breaks(rbbi_table *table, const char *text, size_t length, uint64_t from,
                uint64_t *places, uint32_t *statuses, size_t room, size_t *count,
                uint64_t *resume);

/* The same of a text in UTF-16 of `length` units. A surrogate in no pair is answered by RBBI_LONE
   in place of RBBI_NOT_UTF8. */
int rbbi_breaks_utf16(rbbi_table *table, const uint16_t *text, size_t length, uint64_t from,
                      uint64_t *places, uint32_t *statuses, size_t room, size_t *count,
                      uint64_t *resume);

/* Writes the segments after `from` that are words: those that have a letter or a digit of any
   script. Where each begins goes into `starts`, where it ends into `ends`, and the largest status
   of its end into `statuses`, each of `room` numbers. All else is as with rbbi_breaks; `resume` may
   lie past the last word. */
int rbbi_words(rbbi_table *table, const char *text, size_t length, uint64_t from, uint64_t *starts,
               uint64_t *ends, uint32_t *statuses, size_t room, size_t *count, uint64_t *resume);
int rbbi_words_utf16(rbbi_table *table, const uint16_t *text, size_t length, uint64_t from,
                     uint64_t *starts, uint64_t *ends, uint32_t *statuses, size_t room,
                     size_t *count, uint64_t *resume);

/* ---- a scan: a text of any length that nobody edits and that is passed piece by piece, as it comes
   from a file or a socket. It may be cut anywhere, also inside of a character. Only what lies past the
   last boundary found is kept ---- */

/* Opens a scan of a text in `unit`, which is RBBI_UTF8 or RBBI_UTF16. If `only_words` isn't 0, it
   gives only segments that have a letter or a digit of any script. */
int rbbi_scan_open(rbbi_scan *scan, rbbi_table *table, int unit, int only_words);

/* Feeds the next `length` bytes of a text in UTF-8, and the next units of one in UTF-16. If `is_last`
   isn't 0, the text ends there. `piece` may be NULL if `length` is 0. RBBI_OUTSIDE: the last piece was
   fed before. RBBI_UNIT: the scan has the other unit. RBBI_MEMORY: nothing is fed. */
int rbbi_scan_feed(rbbi_scan *scan, const char *piece, size_t length, int is_last);
int rbbi_scan_feed_utf16(rbbi_scan *scan, const uint16_t *piece, size_t length, int is_last);

/* Writes the next segments of what was fed, in order: where each begins into `starts`, where it ends
   into `ends`, and the largest status of its end into `statuses`, each of `room` numbers, and how many
   were written to `count`. Places have 64 bits and count the units of the whole text. `place` is the
   last boundary found, or that of a fault. `starts` and `statuses` may be NULL, and if `room` is 0,
   `ends` too.
   RBBI_OK: the last segment of the text is written. RBBI_ROOM: there may be more. RBBI_DONE: what is
   next depends on what isn't fed. A search that reads up to the end of what was fed is made again once
   twice as much is there past the last boundary, or the last piece. RBBI_NOT_UTF8, RBBI_LONE,
   RBBI_TOO_LONG and RBBI_MEMORY are as with rbbi_breaks; after RBBI_MEMORY another call tries again.
   Whatever the pieces and rooms, the segments written up to RBBI_OK are those of the whole text. */
int rbbi_scan_next(rbbi_scan *scan, uint64_t *starts, uint64_t *ends, uint32_t *statuses,
                   size_t room, size_t *count, uint64_t *place);

void rbbi_scan_close(rbbi_scan *scan);

/* ---- sessions ---- */

/* Opens a session over a text in UTF-8 of `length` bytes, with places in `unit`. The cursor is at
   0. `text` may be NULL if `length` is 0. */
int rbbi_session_open(rbbi_session *session, rbbi_table *table, const char *text, size_t length,
                      int unit);

/* Opens a session over a text in UTF-16 of `length` units. RBBI_LONE: a surrogate in it is in no
   pair; the number of the first such unit, from 0, goes to `lone`, which may be NULL. */
int rbbi_session_open_utf16(rbbi_session *session, rbbi_table *table, const uint16_t *text,
                            size_t length, int unit, uint32_t *lone);

/* Opens a second session, `copy`, over a copy of the text as it is, with the same table, unit and
   cursor: for a second view, or to keep what was before an edit. From then on neither changes the
   other. It takes the time and the memory of one copy of the text, and while it runs up to twice
   that memory. What `session` has found isn't copied, so the first questions to `copy` search. */
int rbbi_session_fork(rbbi_session *session, rbbi_session *copy);

void rbbi_session_close(rbbi_session *session);

/* ---- filters, which suppress boundaries or map characters before a search. These calls turn an
   open session into one through a filter, over the same text and table, in the same unit; it
   copies no text. The cursor goes to 0. From then on all calls below serve the session but
   rbbi_session_replace_changed, rbbi_session_redraw, rbbi_session_boundaries,
   rbbi_session_boundaries_before and rbbi_session_segment. Those, rbbi_session_fork and a second
   filter answer RBBI_FILTERED.
   RBBI_FAULT: "NotUtf8" with the byte, or "BadLine" with the line. RBBI_TOO_LONG: the file has more
   than 65,536 bytes. `fault` may be NULL. ---- */

/* From now on a boundary before which an abbreviation stands isn't reported, so that a sentence goes
   on after "Mr.". `list` is a file of abbreviations, one a line (docs/formats.md). */
int rbbi_session_suppress(rbbi_session *session, const void *list, size_t length,
                          rbbi_fault *fault);

/* From now on the boundaries are those of the text with its characters mapped by these pairs. The
   text stays as it is. `pairs` is a file of pairs of characters, one a line (docs/formats.md). */
int rbbi_session_tailor(rbbi_session *session, const void *pairs, size_t length,
                        rbbi_fault *fault);

/* Replaces `remove` units from `at` on by the `length` bytes of UTF-8 at `insert`, and sets the
   cursor to 0. What it searches depends on what the edit touches alone, but where the later pieces
   of the text begin is counted again: measured, an insertion near the start takes 0.15 us in 20,000
   characters, 0.7 us in 8,000,000 and 1.6 us in 16,000,000. */
int rbbi_session_replace(rbbi_session *session, uint32_t at, uint32_t remove, const char *insert,
                         size_t length);

/* The same edit, which also writes to `change` what it changed: the least range that has the edit in
   it and outside of which boundaries and their statuses are the old ones. A place before `from` is a
   boundary exactly if it was one, and a place after `new_to` exactly if the place as far after
   `old_to` was one, with the same statuses. At both ends of the range boundaries may differ. So the
   range isn't yet what is to be drawn: without the space in "The quick" it is empty, from 3 to 3.
   rbbi_session_redraw gives that. It copies the characters that it removes first. It reads back to two
   characters at which each search ends, which by lines and sentences may be where the paragraph
   begins, and searches the old and the new text from there to a boundary after the edit at which they
   meet again, however far that is. */
int rbbi_session_replace_changed(rbbi_session *session, uint32_t at, uint32_t remove,
                                 const char *insert, size_t length, rbbi_change *change);

/* What is to be drawn again after the edit of this change: the new text from the boundary before
   `change->from`, or from 0, to the boundary after `change->new_to`, or to the end. All segments that
   changed lie there: without the space in "The quick" it is 0 to 8. Ask before the next edit. The
   cursor stays where it is. */
int rbbi_session_redraw(rbbi_session *session, const rbbi_change *change, uint32_t *from,
                        uint32_t *to);

/* Replaces them by the `length` units of UTF-16 at `insert`. RBBI_LONE: as above. */
int rbbi_session_replace_utf16(rbbi_session *session, uint32_t at, uint32_t remove,
                               const uint16_t *insert, size_t length, uint32_t *lone);

/* The length of the text. */
int rbbi_session_length(rbbi_session *session, uint32_t *length);

/* Writes the text from `from` to `to` in UTF-8 into `room` of `size` bytes, and how many bytes it
   has to `length`. RBBI_ROOM: it has more. RBBI_OUTSIDE: `to` lies past the end or before `from`.
   RBBI_INSIDE: one of them is inside a character. `room` may be NULL if `size` is 0. */
int rbbi_session_text(rbbi_session *session, uint32_t from, uint32_t to, char *room, size_t size,
                      size_t *length);

/* ---- questions: each answer is that of a scan of the whole text as it is. The cursor moves to the
   boundary that is written. RBBI_DONE if there is none ---- */

/* The first boundary, which is 0, and the last, which is the length. */
int rbbi_session_first(rbbi_session *session, uint32_t *place);
int rbbi_session_last(rbbi_session *session, uint32_t *place);

/* The next boundary after the cursor, and the last one before it. After RBBI_DONE the cursor is
   where it was: at the end of the text, or at 0. */
int rbbi_session_next(rbbi_session *session, uint32_t *place);
int rbbi_session_previous(rbbi_session *session, uint32_t *place);

/* The first boundary after `from`, and the last one before it. `from` may be inside a character or
   past the end of the text. After RBBI_DONE the cursor is at the end, or at 0. */
int rbbi_session_following(rbbi_session *session, uint32_t from, uint32_t *place);
int rbbi_session_preceding(rbbi_session *session, uint32_t from, uint32_t *place);

/* Whether `at` is a boundary: 1 or 0. The cursor moves to the first boundary that isn't before
   `at`, or to the end of the text. */
int rbbi_session_is_boundary(rbbi_session *session, uint32_t at, uint32_t *is);

/* Where the cursor is. */
int rbbi_session_current(rbbi_session *session, uint32_t *place);

/* The largest status of the boundary at the cursor. */
int rbbi_session_status(rbbi_session *session, uint32_t *status);

/* Writes the statuses of the boundary at the cursor, in increasing order, into `room` of `size`
   numbers, and how many there are to `count`. RBBI_ROOM: there are more. `room` may be NULL if
   `size` is 0. */
int rbbi_session_statuses(rbbi_session *session, uint32_t *room, size_t size, size_t *count);

/* ---- many boundaries at once. The cursor stays where it is. A question costs a search each time;
   these calls go on from boundary to boundary ---- */

/* Writes the boundaries after `from`, up to and with `to`, in order, into `places`, and the largest
   status of each into `statuses`, each of `room` numbers, and how many were written to `count`.
   RBBI_ROOM: there are more. `resume` is the last one written, or `from` if none was: what is left
   is what a call from `resume` on writes. `statuses` may be NULL, and if `room` is 0, `places` too.
   For all boundaries but the one at 0, ask from 0 to UINT32_MAX. */
int rbbi_session_boundaries(rbbi_session *session, uint32_t from, uint32_t to, uint32_t *places,
                            uint32_t *statuses, size_t room, size_t *count, uint32_t *resume);

/* Writes the boundaries before `from`, down to and with `to`, the last one first. All else is as
   with rbbi_session_boundaries. */
int rbbi_session_boundaries_before(rbbi_session *session, uint32_t from, uint32_t to,
                                   uint32_t *places, uint32_t *statuses, size_t room,
                                   size_t *count, uint32_t *resume);

/* Where the segment that holds the character after `at` begins and ends, and the largest status of
   its end. If `at` is inside a character, that is the one meant. RBBI_DONE if `at` is at the end of
   the text or past it. The cursor stays where it is. */
int rbbi_session_segment(rbbi_session *session, uint32_t at, uint32_t *from, uint32_t *to,
                         uint32_t *status);

/* ---- tallies: how many segments of a text have each status, kept while the text is edited. A
   segment lies between two neighbouring boundaries, and counts under the largest status of its
   end ---- */

/* Opens a tally of a text in UTF-8 of `length` bytes, with the places of edits in `unit`. It
   searches the whole text once. `text` may be NULL if `length` is 0. */
int rbbi_tally_open(rbbi_tally *tally, rbbi_table *table, const char *text, size_t length,
                    int unit);

void rbbi_tally_close(rbbi_tally *tally);

/* Replaces `remove` units from `at` on by the `length` bytes of UTF-8 at `insert`, and counts again
   what that touches. Before anything changes it takes 8 bytes for each character after the place,
   and keeps them for later edits: 134 MB for an edit at the start of 16,777,216 characters. */
int rbbi_tally_replace(rbbi_tally *tally, uint32_t at, uint32_t remove, const char *insert,
                       size_t length);

/* How many segments there are. */
int rbbi_tally_segments(rbbi_tally *tally, uint32_t *count);

/* How many segments have `status` as their largest one. */
int rbbi_tally_count(rbbi_tally *tally, uint32_t status, uint32_t *count);

/* Writes the statuses that some segment has as its largest one, in increasing order, into
   `statuses`, how many segments have each into `counts`, each of `room` numbers, and how many
   statuses there are to `count`. RBBI_ROOM: there are more. Both may be NULL if `room` is 0. */
int rbbi_tally_each(rbbi_tally *tally, uint32_t *statuses, uint32_t *counts, size_t room,
                    size_t *count);

#ifdef __cplusplus
}
#endif

#endif
