/*
 * A small editor: editor FILE. It moves by grapheme, word and sentence, wraps lines where they may
 * break, and colours words by their status. examples/editor/README.md has its keys and a screen.
 *
 * There is one buffer, and over it a session for each table of the library; each edit goes to all
 * four. Places count bytes of UTF-8.
 */
#define _XOPEN_SOURCE 700
#define _XOPEN_SOURCE_EXTENDED 1
#include <curses.h>
#include <langinfo.h>
#include <limits.h>
#include <locale.h>
#include <rbbi.h>
#include <stdbool.h>
#include <stdio.h>
#include <stdlib.h>
#include <string.h>
#include <wchar.h>

enum { GRAPHEME, WORD, SENTENCE, LINE, KINDS };
enum { PLAIN, NUMBERS, LETTERS, KANA, IDEOGRAPHS, BREAKS, ENDS }; /* colours */
enum { CONTROL_LEFT = KEY_MAX + 1, CONTROL_RIGHT };
#define ALT(key) (-(key))
#define CONTROL(key) ((key) & 0x1f)

static const char *file_name;
static char *text; /* the buffer, of `room` bytes, with a zero after its `length` */
static uint32_t length, room;
static uint32_t cursor, top; /* where the user is, and where the screen's first row begins */
static int goal = -1;        /* the column that moves up and down keep to, or -1 */
static bool changed;
static char message[200];
static rbbi_session sessions[KINDS];

static void end_with(const char *what, const char *why) {
    endwin();
    fprintf(stderr, "editor: %s: %s\n", what, why);
    exit(1);
}

static bool is_found(int answer) {
    if (answer > RBBI_DONE) {
        end_with("rbbi", rbbi_message(answer));
    }
    return answer == RBBI_OK;
}

/* ---- questions ---- */

/* The first boundary after a place, or the end of the text. */
static uint32_t after(int kind, uint32_t at) {
    uint32_t place;
    return is_found(rbbi_session_following(&sessions[kind], at, &place)) ? place : length;
}

/* The last boundary before a place, or 0. */
static uint32_t before(int kind, uint32_t at) {
    uint32_t place;
    return is_found(rbbi_session_preceding(&sessions[kind], at, &place)) ? place : 0;
}

/* The status of the boundary that the last question found. */
static uint32_t status_of(int kind) {
    uint32_t status = 0;
    is_found(rbbi_session_status(&sessions[kind], &status));
    return status;
}

/* Whether a line ends before a place, whatever the width: after a line feed, and the like. */
static bool is_hard(uint32_t at) {
    uint32_t is = 0;
    is_found(rbbi_session_is_boundary(&sessions[LINE], at, &is));
    return at == 0 || (is && status_of(LINE) == 100);
}

/* ---- the buffer ---- */

static void grow(size_t size) {
    if (size >= room) {
        room = (uint32_t)size * 2 + 4096;
        text = realloc(text, room);
        if (!text) {
            end_with(file_name, "memory ran out");
        }
    }
}

/* Reads the file, if there is one, and opens the sessions. */
static void load(void) {
    FILE *file = fopen(file_name, "rb");
    size_t count = 0, got = 1;
    while (file && got > 0 && count < 100000000) {
        grow(count + 65536);
        got = fread(text + count, 1, 65536, file);
        count += got;
    }
    if (file && (ferror(file) || fclose(file) != 0)) {
        end_with(file_name, "can't be read");
    }
    grow(count);
    length = (uint32_t)count;
    text[length] = 0;
    static const char *const names[KINDS] = {"grapheme", "word", "sentence", "line"};
    for (int kind = 0; kind < KINDS; kind++) {
        rbbi_table table = RBBI_INIT;
        is_found(rbbi_table_named(&table, names[kind]));
        int answer = rbbi_session_open(&sessions[kind], &table, text, length, RBBI_UTF8);
        rbbi_table_close(&table); /* the session keeps it */
        if (answer != RBBI_OK) {
            end_with(file_name, rbbi_message(answer));
        }
    }
}

/* Writes a new file beside the old one, and puts it in its place. */
static void save(void) {
    char other[4096];
    snprintf(other, sizeof other, "%s.new", file_name);
    FILE *file = fopen(other, "wb");
    bool right = file && fwrite(text, 1, length, file) == length;
    right = file && fclose(file) == 0 && right && rename(other, file_name) == 0;
    snprintf(message, sizeof message, right ? "%u bytes saved" : "can't be saved", length);
    changed = changed && !right;
}

/* Replaces `remove` bytes from a place, in the buffer and in each session, and goes to the end of
   what was put in. */
static void replace(uint32_t at, uint32_t remove, const char *insert, uint32_t count) {
    for (int kind = 0; kind < KINDS; kind++) {
        int answer = rbbi_session_replace(&sessions[kind], at, remove, insert, count);
        if (answer == RBBI_TOO_LONG) { /* the first session tells it */
            snprintf(message, sizeof message, "%s", rbbi_message(answer));
            return;
        }
        is_found(answer);
    }
    grow((size_t)length - remove + count);
    memmove(text + at + count, text + at + remove, length - at - remove + 1);
    memcpy(text + at, insert, count);
    length = length - remove + count;
    cursor = at + count;
    changed = true;
}

/* ---- rows of the screen ---- */

/* The width of a grapheme that begins in a column, as curses draws it. */
static int width_of(uint32_t at, uint32_t end, int column) {
    int width = 0;
    if (text[at] == '\t') {
        return 8 - column % 8;
    }
    while (at < end) {
        wchar_t c;
        size_t taken = mbrtowc(&c, text + at, end - at, &(mbstate_t){0});
        if (taken == 0 || taken > end - at) {
            break;
        }
        int each = wcwidth(c);
        width += each > 0 ? each : 0;
        at += (uint32_t)taken;
    }
    return width > 0 ? width : 1;
}

/* The end of the row that begins at a place: a hard end, or the last break of the line that fits in
   the width, or the last grapheme that does. Spaces may hang over. */
static uint32_t row_end(uint32_t start) {
    uint32_t at = start, fit = start, chance = after(LINE, start);
    int column = 0;
    while (at < length) {
        uint32_t end = after(GRAPHEME, at);
        int width = width_of(at, end, column);
        if (column + width > COLS && text[at] != ' ' && text[at] != '\n' && text[at] != '\r') {
            return fit > start ? fit : at > start ? at : end;
        }
        column += width;
        at = end;
        if (at >= chance) {
            if (is_hard(at)) {
                return at;
            }
            fit = at;
            chance = after(LINE, at);
        }
    }
    return length;
}

/* The start of the row that holds a place. */
static uint32_t row_of(uint32_t at) {
    uint32_t start = at;
    while (!is_hard(start)) {
        start = before(LINE, start);
    }
    uint32_t end = row_end(start);
    while (end <= at && end < length) {
        start = end;
        end = row_end(start);
    }
    return end == length && at == length && length > start && is_hard(length) ? length : start;
}

/* The last place of the row that begins at `start`: before its hard end, or its last grapheme. */
static uint32_t row_last(uint32_t start) {
    uint32_t end = row_end(start);
    return end == length && !(end > start && is_hard(end)) ? end : before(GRAPHEME, end);
}

static uint32_t row_before(uint32_t start) {
    return start == 0 ? 0 : row_of(before(GRAPHEME, start));
}

/* The column of a place in the row that begins at `start`; with `most`, the last place whose column
   is at most that, into `at`. */
static int column_of(uint32_t start, uint32_t *at, int most) {
    uint32_t last = most < 0 ? *at : row_last(start), place = start;
    int column = 0;
    while (place < last) {
        uint32_t end = after(GRAPHEME, place);
        int width = width_of(place, end, column);
        if (most >= 0 && column + width > most) {
            break;
        }
        column += width;
        place = end;
    }
    *at = place;
    return column;
}

/* ---- the screen ---- */

static int colour_of(uint32_t status) {
    return status >= 100 && status < 500 ? (int)status / 100 : PLAIN;
}

/* Draws a grapheme: a line feed and a space before a break of the line have signs, and another one
   before a break is underlined. */
static void draw_grapheme(uint32_t at, uint32_t end, int colour, bool is_break) {
    bool is_end = text[at] == '\n' || text[at] == '\r';
    const char *sign = is_end ? "\xc2\xb6" : is_break && text[at] == ' ' ? "\xc2\xb7" : NULL;
    if (sign) {
        attrset(COLOR_PAIR(is_end ? ENDS : BREAKS));
        addstr(sign);
    } else if ((unsigned char)text[at] < ' ' || text[at] == 0x7f) {
        attrset(COLOR_PAIR(ENDS));
        addstr(text[at] == '\t' ? " " : "?");
    } else {
        attrset((attr_t)COLOR_PAIR(colour) | (is_break ? A_UNDERLINE : 0));
        addnstr(text + at, (int)(end - at));
    }
}

static void draw_row(int y, uint32_t start, uint32_t end) {
    uint32_t word = start, chance = start;
    int column = 0, colour = PLAIN;
    for (uint32_t at = start; at < end && column < COLS;) {
        uint32_t next = after(GRAPHEME, at);
        if (at >= word) {
            word = after(WORD, at);
            colour = colour_of(status_of(WORD));
        }
        if (at >= chance) {
            chance = after(LINE, at);
        }
        move(y, column);
        draw_grapheme(at, next, colour, next == chance && next < length);
        column += width_of(at, next, column);
        at = next;
    }
}

/* The last line: the file, the place, and what the tables say there. */
static void draw_status(void) {
    char line[512];
    uint32_t word = before(WORD, cursor + 1), word_end = after(WORD, cursor);
    uint32_t status = status_of(WORD);
    uint32_t sentence = before(SENTENCE, cursor + 1), sentence_end = after(SENTENCE, cursor);
    snprintf(line, sizeof line, "%s%s  byte %u of %u  word %u-%u:%u  sentence %u-%u", file_name,
             changed ? "*" : "", cursor, length, word, word_end, status, sentence, sentence_end);
    attrset(A_REVERSE);
    mvhline(LINES - 1, 0, ' ', COLS);
    mvaddnstr(LINES - 1, 0, message[0] ? message : line, COLS);
    message[0] = 0;
}

/* Puts the row of the cursor on the screen, and draws all rows. */
static void draw(void) {
    int y = 0, rows = LINES - 1;
    uint32_t row = row_of(cursor);
    top = row_of(top < length ? top : length);
    uint32_t start = top;
    while (y < rows && start < row) {
        start = row_end(start);
        y++;
    }
    if (row < top || y >= rows) {
        top = row;
        for (y = 0; y < rows / 2 && top > 0; y++) {
            top = row_before(top);
        }
    }
    erase();
    start = top;
    for (int i = 0; i < rows && (start < length || i == 0); i++) {
        uint32_t end = row_end(start);
        draw_row(i, start, end);
        start = end;
    }
    draw_status();
    uint32_t at = cursor;
    int column = column_of(row, &at, -1);
    move(y, column < COLS ? column : COLS - 1);
    refresh();
}

/* ---- keys ---- */

static void move_rows(int rows) {
    uint32_t row = row_of(cursor), at = cursor;
    if (goal < 0) {
        goal = column_of(row, &at, -1);
    }
    for (; rows < 0; rows++) {
        row = row_before(row);
    }
    for (; rows > 0; rows--) {
        uint32_t end = row_end(row);
        if (end < length || is_hard(end)) {
            row = end;
        }
    }
    column_of(row, &cursor, goal);
}

/* Goes to the end of the next word, or to the start of the one before: segments of status 0 are
   passed over. */
static void move_word(bool forward) {
    uint32_t status;
    do {
        cursor = forward ? after(WORD, cursor) : before(WORD, cursor);
        if (!forward) {
            after(WORD, cursor);
        }
        status = status_of(WORD);
    } while (status == 0 && cursor > 0 && cursor < length);
}

/* The next key: a character, a code of curses, or ALT of a character. */
static int next_key(bool *is_character) {
    wint_t key = 0;
    int kind = get_wch(&key);
    *is_character = false;
    if (kind == OK && key == 27) {
        timeout(25);
        kind = get_wch(&key);
        timeout(-1);
        return kind == OK ? ALT((int)key) : 0;
    }
    bool is_sign = key == '\t' || key == '\r' || key == '\n' || (key >= ' ' && key != 127);
    *is_character = kind == OK && is_sign;
    return kind == ERR ? 0 : (int)key;
}

static void insert(wchar_t c) {
    char bytes[MB_LEN_MAX];
    if (c == '\r') {
        c = '\n';
    }
    size_t count = wcrtomb(bytes, c, &(mbstate_t){0});
    if (count != (size_t)-1) {
        replace(cursor, 0, bytes, (uint32_t)count);
    }
}

static void erase_from(uint32_t at) {
    uint32_t end = after(GRAPHEME, at);
    if (at < length) {
        replace(at, end - at, "", 0);
    }
}

/* Does what a key says; false where the editor is to end. */
static bool pressed(int key) {
    static bool asked;
    bool again = asked;
    asked = false;
    if (key != KEY_UP && key != KEY_DOWN && key != KEY_PPAGE && key != KEY_NPAGE) {
        goal = -1;
    }
    switch (key) {
    case KEY_LEFT: cursor = before(GRAPHEME, cursor); break;
    case KEY_RIGHT: cursor = after(GRAPHEME, cursor); break;
    case KEY_UP: move_rows(-1); break;
    case KEY_DOWN: move_rows(1); break;
    case KEY_PPAGE: move_rows(2 - LINES); break;
    case KEY_NPAGE: move_rows(LINES - 2); break;
    case KEY_HOME: cursor = row_of(cursor); break;
    case KEY_END: cursor = row_last(row_of(cursor)); break;
    case CONTROL_LEFT: case ALT('b'): move_word(false); break;
    case CONTROL_RIGHT: case ALT('f'): move_word(true); break;
    case ALT('a'): cursor = before(SENTENCE, cursor); break;
    case ALT('e'): cursor = after(SENTENCE, cursor); break;
    case KEY_DC: erase_from(cursor); break;
    case KEY_BACKSPACE: case 127: case CONTROL('h'):
        if (cursor > 0) {
            erase_from(before(GRAPHEME, cursor));
        }
        break;
    case CONTROL('s'): save(); break;
    case CONTROL('q'):
        asked = changed;
        snprintf(message, sizeof message, "not saved: ^Q again to leave");
        return changed && !again;
    }
    return true;
}

int main(int count, char **words) {
    setlocale(LC_ALL, "");
    if (count != 2 || strcmp(nl_langinfo(CODESET), "UTF-8") != 0) {
        fprintf(stderr, "editor FILE, in a locale of UTF-8\n");
        return 2;
    }
    file_name = words[1];
    set_escdelay(25);
    initscr();
    raw();
    noecho();
    nonl();
    keypad(stdscr, TRUE);
    define_key("\033[1;5D", CONTROL_LEFT);
    define_key("\033[1;5C", CONTROL_RIGHT);
    start_color();
    use_default_colors();
    static const short colours[] = {-1, COLOR_CYAN, COLOR_GREEN, COLOR_MAGENTA,
                                    COLOR_YELLOW, COLOR_BLUE, COLOR_RED};
    for (short pair = NUMBERS; pair <= ENDS; pair++) {
        init_pair(pair, colours[pair], -1);
    }
    load();
    bool goes_on = true, is_character;
    while (goes_on) {
        draw();
        int key = next_key(&is_character);
        if (is_character) {
            goal = -1;
            insert((wchar_t)key);
        } else {
            goes_on = pressed(key);
        }
    }
    endwin();
    for (int kind = 0; kind < KINDS; kind++) {
        rbbi_session_close(&sessions[kind]);
    }
    free(text);
    return 0;
}
