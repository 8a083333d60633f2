/*
 * Single calls through the C library beside the same calls of ICU: c_calls TABLE RULES TEXT UNIT [CASE..].
 *
 * TABLE is a table file, and RULES are the same rules in ICU's syntax. Both files RULES and TEXT are in
 * UTF-8. UNIT is 8 or 16: both sides take the text in UTF-8 or in UTF-16, and count in its units. ICU's
 * text is a UText over a flat buffer, which an edit writes to and ubrk_setUText tells of.
 *
 * A line is printed for each case, or for those that are named: its name, and the nanoseconds of processor time that a call of rbbi
 * and one of ICU takes. Each is the least of five rounds, which are taken in turn. A round begins with a
 * session that was just opened. If both sides don't give the same places, the status is 1.
 */
#include <math.h>
#include <rbbi.h>
#include <stdio.h>
#include <stdlib.h>
#include <string.h>
#include <time.h>
#include <unicode/ubrk.h>
#include <unicode/ustring.h>
#include <unicode/utext.h>
#include <unicode/utf16.h>
#include <unicode/utf8.h>

enum { ROUNDS = 5, MOST = 20000, MILLION = 1000000, SCREEN = 4000, BEHIND = 1000, ROOM = 4096, ROW = 80 };

static int wide;               /* whether the unit is 16 bits */
static const void *text;       /* the text in the unit */
static uint32_t length;        /* how many units it has */
static uint32_t million;       /* the first boundary after its first million characters, or its end */
static uint32_t at[MOST];      /* random places, at each of which a character begins */
static uint32_t sizes[MOST];   /* and how many units that has */
static uint32_t rows[MOST];    /* and how many units ROW characters from there on have */
static uint32_t middle;        /* such a place in the middle */
static uint32_t near_end;      /* and one about BEHIND units before the end */

static rbbi_table table = RBBI_INIT;
static rbbi_session session = RBBI_INIT, second = RBBI_INIT;
static UBreakIterator *icu;
static UText *view;
static void *buffer;           /* ICU's text as it is */
static uint32_t held;          /* how many units that has */
static void *spare;            /* what a round leaves to be freed */
static UErrorCode status = U_ZERO_ERROR;

static void must(int is, const char *what) {
    if (!is) {
        fprintf(stderr, "c_calls: %s\n", what);
        exit(1);
    }
}

static double seconds(void) {
    struct timespec now;
    clock_gettime(CLOCK_PROCESS_CPUTIME_ID, &now);
    return (double)now.tv_sec + (double)now.tv_nsec / 1e9;
}

static uint32_t draw(uint32_t below) {
    static uint64_t state = 2611;
    state = state * 6364136223846793005u + 1442695040888963407u;
    return (uint32_t)((state >> 33) % below);
}

/* Where the character begins that holds a place, and the place after the one that begins there. */
static uint32_t start_at(uint32_t place) {
    if (wide) U16_SET_CP_START((const UChar *)text, 0, place);
    else U8_SET_CP_START((const uint8_t *)text, 0, place);
    return place;
}

static uint32_t end_at(uint32_t place) {
    if (wide) U16_FWD_1((const UChar *)text, place, length);
    else U8_FWD_1((const uint8_t *)text, place, length);
    return place;
}

/* Room for a text of so many units, and what is typed into it. */
static void *room(uint32_t units) {
    void *made = malloc(((size_t)units + MOST) << wide);
    must(made != NULL, "memory");
    return made;
}

static void *spot(void *units, uint32_t place) {
    return (char *)units + ((size_t)place << wide);
}

/* A character of so many units, which an edit puts. */
static const void *letter(uint32_t size, int i) {
    static const char *const UTF8[] = {" ", "x", "\u00E9", "\u0E01", "\U0001D11E"};
    static const UChar UTF16[][3] = {u" ", u"x", u"\U0001D11E"};
    int which = size == 1 ? i % 5 > 0 : (int)size;
    return wide ? (const void *)UTF16[which] : UTF8[which];
}

static void our_open(rbbi_session *opened) {
    must((wide ? rbbi_session_open_utf16(opened, &table, text, length, RBBI_UTF16, NULL)
               : rbbi_session_open(opened, &table, text, length, RBBI_UTF8)) == RBBI_OK, "open");
}

static void icu_open(void) {
    view = wide ? utext_openUChars(view, buffer, held, &status) : utext_openUTF8(view, buffer, held, &status);
    ubrk_setUText(icu, view, &status);
}

/* An edit at a place, and the two questions that draw its line. */
static uint64_t our_edit(uint32_t place, uint32_t remove, uint32_t insert, int i) {
    uint32_t from = 0, to = 0;
    must((wide ? rbbi_session_replace_utf16(&session, place, remove, letter(insert, i), insert, NULL)
               : rbbi_session_replace(&session, place, remove, letter(insert, i), insert)) == RBBI_OK, "edit");
    must(rbbi_session_preceding(&session, place + insert, &from) == RBBI_OK, "preceding");
    must(rbbi_session_following(&session, place, &to) == RBBI_OK, "following");
    return from * 31ull + to;
}

static uint64_t icu_edit(uint32_t place, uint32_t remove, uint32_t insert, int i) {
    if (insert != remove) {
        memmove(spot(buffer, place + insert), spot(buffer, place + remove), (size_t)(held - place - remove) << wide);
        held += insert - remove;
    }
    memcpy(spot(buffer, place), letter(insert, i), (size_t)insert << wide);
    icu_open();
    uint64_t from = (uint32_t)ubrk_preceding(icu, (int32_t)(place + insert));
    return from * 31ull + (uint32_t)ubrk_following(icu, (int32_t)place);
}

/* The boundaries of the first million characters with their statuses, many at a time. */
static uint32_t places[ROOM], statuses[ROOM];

static uint64_t our_list(void) {
    uint32_t resume = 0;
    uint64_t sum = 0;
    size_t count = 0;
    int answer;
    do {
        answer = rbbi_session_boundaries(&session, resume, million, places, statuses, ROOM, &count, &resume);
        if (count > 0) sum = sum * 31 + places[count - 1] + statuses[count - 1] + count;
    } while (answer == RBBI_ROOM);
    must(answer == RBBI_OK, "boundaries");
    return sum;
}

static uint64_t icu_list(void) {
    uint64_t sum = 0;
    size_t count = 0;
    for (uint32_t place = (uint32_t)ubrk_first(icu); place < million;) {
        places[count] = place = (uint32_t)ubrk_next(icu);
        statuses[count++] = (uint32_t)ubrk_getRuleStatus(icu);
        if (count == ROOM || place >= million) {
            sum = sum * 31 + places[count - 1] + statuses[count - 1] + count;
            count = 0;
        }
    }
    return sum;
}

/* The boundaries of a text that no session holds, with their statuses, many at a time. */
static uint64_t offsets[ROOM];

static uint64_t our_scan(uint32_t place, uint32_t units) {
    uint64_t resume = 0, sum = 0;
    size_t count = 0;
    int answer;
    do {
        answer = wide ? rbbi_breaks_utf16(&table, (const uint16_t *)text + place, units, resume, offsets, statuses,
                                          ROOM, &count, &resume)
                      : rbbi_breaks(&table, (const char *)text + place, units, resume, offsets, statuses, ROOM,
                                    &count, &resume);
        if (count > 0) sum = sum * 31 + offsets[count - 1] + statuses[count - 1] + count;
    } while (answer == RBBI_ROOM);
    must(answer == RBBI_OK, "breaks");
    return sum;
}

static uint64_t icu_scan(uint32_t place, uint32_t units) {
    uint64_t sum = 0;
    size_t count = 0;
    view = wide ? utext_openUChars(view, (const UChar *)text + place, units, &status)
                : utext_openUTF8(view, (const char *)text + place, units, &status);
    ubrk_setUText(icu, view, &status);
    for (uint32_t end = (uint32_t)ubrk_first(icu); end < units;) {
        places[count] = end = (uint32_t)ubrk_next(icu);
        statuses[count++] = (uint32_t)ubrk_getRuleStatus(icu);
        if (count == ROOM || end >= units) {
            sum = sum * 31 + places[count - 1] + statuses[count - 1] + count;
            count = 0;
        }
    }
    return sum;
}

/* The cases, and how many calls of each a round makes. CHANGE puts a character in place of one of as many
   units. TYPE puts a letter after the one before, near the end, so that ICU's buffer moves little. OPEN
   opens the text and asks for the boundaries of a screen; in COPY ICU copies the text first, as a session
   does. SCAN and ROWS have all boundaries of a text that no session holds: the whole one, and a row. */
enum kind { NEXT, PREVIOUS, FOLLOWING, PRECEDING, IS_BOUNDARY, CHANGE, TYPE, OPEN, COPY, LIST, SCAN, ROWS, KINDS };

static const struct {
    const char *name;
    int calls;
} CASES[KINDS] = {
    {"next", MOST}, {"previous", MOST}, {"following", MOST}, {"preceding", MOST}, {"is_boundary", MOST},
    {"change", MOST / 4}, {"type", MOST / 4}, {"open", 1}, {"copy", 1}, {"list", 1},
    {"scan", 1}, {"row", MOST},
};

/* What the i-th call of a case answers. */
static uint64_t ours(enum kind kind, int i) {
    uint32_t place = 0;
    int answer = RBBI_OK;
    switch (kind) {
    case NEXT: answer = rbbi_session_next(&session, &place); break;
    case PREVIOUS: answer = rbbi_session_previous(&session, &place); break;
    case FOLLOWING: answer = rbbi_session_following(&session, at[i], &place); break;
    case PRECEDING: answer = rbbi_session_preceding(&session, at[i], &place); break;
    case IS_BOUNDARY: answer = rbbi_session_is_boundary(&session, at[i], &place); break;
    case CHANGE: return our_edit(at[i], sizes[i], sizes[i], i);
    case TYPE: return our_edit(near_end + (uint32_t)i, 0, 1, i);
    case OPEN:
    case COPY:
        our_open(&second);
        while (place < SCREEN) must(rbbi_session_next(&second, &place) == RBBI_OK, "next");
        break;
    case SCAN: return our_scan(0, length);
    case ROWS: return our_scan(at[i], rows[i]);
    default: return our_list();
    }
    must(answer == RBBI_OK, CASES[kind].name);
    return place;
}

static uint64_t icus(enum kind kind, int i) {
    uint32_t place = 0;
    switch (kind) {
    case NEXT: return (uint32_t)ubrk_next(icu);
    case PREVIOUS: return (uint32_t)ubrk_previous(icu);
    case FOLLOWING: return (uint32_t)ubrk_following(icu, (int32_t)at[i]);
    case PRECEDING: return (uint32_t)ubrk_preceding(icu, (int32_t)at[i]);
    case IS_BOUNDARY: return ubrk_isBoundary(icu, (int32_t)at[i]) != 0;
    case CHANGE: return icu_edit(at[i], sizes[i], sizes[i], i);
    case TYPE: return icu_edit(near_end + (uint32_t)i, 0, 1, i);
    case COPY:
        spare = buffer;
        memcpy(buffer = room(length), text, (size_t)length << wide);
        /* fall through */
    case OPEN:
        icu_open();
        while (place < SCREEN) place = (uint32_t)ubrk_next(icu);
        return place;
    case SCAN: return icu_scan(0, length);
    case ROWS: return icu_scan(at[i], rows[i]);
    default: return icu_list();
    }
}

/* A round begins: the text is as it was in the file, and the cursors are in the middle. */
static void begin(void) {
    uint32_t place;
    free(spare);
    spare = NULL;
    rbbi_session_close(&second);
    rbbi_session_close(&session);
    our_open(&session);
    memcpy(buffer, text, (size_t)length << wide);
    held = length;
    icu_open();
    must(rbbi_session_following(&session, middle, &place) == RBBI_OK, "following");
    must((uint32_t)ubrk_following(icu, (int32_t)middle) == place, "following");
}

static void *file_bytes(const char *name, size_t *size) {
    FILE *file = fopen(name, "rb");
    must(file != NULL && fseek(file, 0, SEEK_END) == 0, name);
    *size = (size_t)ftell(file);
    rewind(file);
    char *bytes = malloc(*size + 1);
    must(bytes != NULL && fread(bytes, 1, *size, file) == *size, name);
    fclose(file);
    return bytes;
}

/* The text in UTF-16, and how many units it has. */
static UChar *units_of(const char *bytes, size_t size, int32_t *count) {
    UChar *units = malloc((size + 1) * sizeof *units);
    must(units != NULL, "memory");
    u_strFromUTF8(units, (int32_t)size + 1, count, bytes, (int32_t)size, &status);
    return units;
}

static void set_up(char **words) {
    size_t size, table_size, rules_size;
    int32_t count, rules_count;
    void *table_bytes = file_bytes(words[1], &table_size), *rules = file_bytes(words[2], &rules_size);
    char *bytes = file_bytes(words[3], &size);
    UChar *units = units_of(bytes, size, &count);
    wide = atoi(words[4]) == 16;
    text = wide ? (void *)units : bytes;
    length = wide ? (uint32_t)count : (uint32_t)size;
    buffer = room(length);
    UParseError fault;
    UChar *theirs = units_of(rules, rules_size, &rules_count);
    icu = ubrk_openRules(theirs, rules_count, NULL, 0, &fault, &status);
    must(rbbi_table_load(&table, table_bytes, table_size, NULL) == RBBI_OK, words[1]);
    must(U_SUCCESS(status) && length > 10 * BEHIND, words[2]);
    memcpy(buffer, text, (size_t)length << wide);
    held = length;
    icu_open();
    for (int i = 0; i < MILLION && million < length; i++) million = end_at(million);
    million = (uint32_t)ubrk_following(icu, (int32_t)million - 1);
    for (int i = 0; i < MOST; i++) {
        at[i] = end_at(start_at(draw(length - 10)));
        sizes[i] = end_at(at[i]) - at[i];
        rows[i] = at[i];
        for (int k = 0; k < ROW && rows[i] < length; k++) rows[i] = end_at(rows[i]);
        rows[i] -= at[i];
    }
    near_end = start_at(length - BEHIND);
    middle = start_at(length / 2);
}

/* Whether a case is asked for: among these words, where there are any. */
static int is_wanted(enum kind kind, int count, char **words) {
    int found = count == 0;
    for (int i = 0; i < count; i++) found |= strcmp(words[i], CASES[kind].name) == 0;
    return found;
}

int main(int count, char **words) {
    must(count >= 5, "TABLE RULES TEXT UNIT [CASE..]");
    set_up(words);
    for (enum kind kind = 0; kind < KINDS; kind++) {
        if (!is_wanted(kind, count - 5, words + 5)) continue;
        double least[2] = {INFINITY, INFINITY};
        for (int round = 0; round < ROUNDS; round++) {
            uint64_t sums[2] = {0, 0};
            begin();
            for (int side = 0; side < 2; side++) {
                double start = seconds();
                for (int i = 0; i < CASES[kind].calls; i++) sums[side] = sums[side] * 31 + (side ? icus : ours)(kind, i);
                least[side] = fmin(least[side], seconds() - start);
            }
            must(sums[0] == sums[1] && U_SUCCESS(status), CASES[kind].name);
        }
        double billions = CASES[kind].calls / 1e9;
        printf("%s %.1f %.1f\n", CASES[kind].name, least[0] / billions, least[1] / billions);
    }
    return 0;
}
