/*
 * A tokenizer for SQLite's FTS5: the words of a text by librbbi, folded as `unicode61` folds.
 *
 *     CREATE VIRTUAL TABLE t USING fts5(body, tokenize = 'rbbi word');
 *
 * The arguments are `word`, `rules FILE` or `table FILE`, and then those of `unicode61`, as
 * `remove_diacritics 2`. A token is a segment with a letter or a digit of any script. Its bytes go
 * through a tokenizer `unicode61` for which every character is part of a token, so case and
 * diacritics are SQLite's own. Offsets are those of the text. Bytes that aren't UTF-8 count as `?`.
 */
#include <rbbi.h>
#include <sqlite3ext.h>
#include <stdio.h>
#include <string.h>
SQLITE_EXTENSION_INIT1

/* How many words are asked for at once. */
enum { ROOM = 256 };

typedef struct tokenizer {
    rbbi_table table;
    fts5_tokenizer calls;   /* the calls of `unicode61` */
    Fts5Tokenizer *folding; /* the one that folds */
} tokenizer;

/* A token on its way through `unicode61`: for whom it is, and where it lies in the text. */
typedef struct token {
    void *context;
    int (*take)(void *, int, const char *, int, int, int);
    int from, to;
} token;

static int take_folded(void *context, int flags, const char *text, int length, int from, int to) {
    const token *word = context;
    (void)from;
    (void)to;
    return word->take(word->context, flags, text, length, word->from, word->to);
}

/* The length of the character of UTF-8 that begins at `text`, or 0 if none does. */
static size_t character(const unsigned char *text, size_t length) {
    unsigned char first = text[0], low = 0x80, high = 0xBF;
    size_t size = first < 0x80 ? 1 : first < 0xC2 ? 0 : first < 0xE0 ? 2 : first < 0xF0 ? 3 : first < 0xF5 ? 4 : 0;
    if (size > length)
        return 0;
    if (first == 0xE0)
        low = 0xA0;
    if (first == 0xED)
        high = 0x9F;
    if (first == 0xF0)
        low = 0x90;
    if (first == 0xF4)
        high = 0x8F;
    for (size_t at = 1; at < size; at++) {
        if (text[at] < low || text[at] > high)
            return 0;
        low = 0x80;
        high = 0xBF;
    }
    return size;
}

/* A copy of a text with `?` for each byte that is part of no character. */
static char *replaced(const char *text, size_t length) {
    char *copy = sqlite3_malloc64(length);
    size_t at = 0;
    while (copy && at < length) {
        size_t size = character((const unsigned char *)text + at, length - at);
        if (size)
            memcpy(copy + at, text + at, size);
        else
            copy[at] = '?';
        at += size ? size : 1;
    }
    return copy;
}

/* Gives the words of a text from a byte on, which goes on to where it stopped: at bytes that are no
   character to the last boundary before them that is known. */
static int give(tokenizer *self, token *word, int flags, const char *text, size_t length,
                uint64_t *from, int *answer) {
    uint64_t starts[ROOM], ends[ROOM];
    uint64_t resume = *from;
    size_t count = 0;
    *answer = rbbi_words(&self->table, text, length, *from, starts, ends, NULL, ROOM, &count, &resume);
    if (*answer == RBBI_NOT_UTF8)
        resume = count > 0 ? ends[count - 1] : *from;
    *from = resume;
    for (size_t at = 0; at < count; at++) {
        word->from = (int)starts[at];
        word->to = (int)ends[at];
        int status = self->calls.xTokenize(self->folding, word, flags, text + starts[at],
                                           word->to - word->from, take_folded);
        if (status != SQLITE_OK)
            return status;
    }
    return *answer == RBBI_MEMORY ? SQLITE_NOMEM : SQLITE_OK;
}

static int tokenize(Fts5Tokenizer *given, void *context, int flags, const char *text, int length,
                    int (*take)(void *, int, const char *, int, int, int)) {
    tokenizer *self = (tokenizer *)given;
    token word = {context, take, 0, 0};
    char *copy = NULL;
    uint64_t from = 0;
    int status = SQLITE_OK, answer = length > 0 ? RBBI_ROOM : RBBI_OK;
    while (status == SQLITE_OK && answer == RBBI_ROOM) {
        status = give(self, &word, flags, text, (size_t)length, &from, &answer);
        if (answer == RBBI_NOT_UTF8 && !copy) {
            text = copy = replaced(text, (size_t)length);
            status = copy ? status : SQLITE_NOMEM;
            answer = RBBI_ROOM;
        }
    }
    sqlite3_free(copy);
    return status == SQLITE_OK && answer != RBBI_OK ? SQLITE_ERROR : status;
}

static void discard(Fts5Tokenizer *given) {
    tokenizer *self = (tokenizer *)given;
    if (self->folding)
        self->calls.xDelete(self->folding);
    rbbi_table_close(&self->table);
    sqlite3_free(self);
}

/* The bytes of a file, or NULL. */
static char *read_file(const char *name, size_t *length) {
    FILE *file = fopen(name, "rb");
    char *bytes = NULL;
    if (file && fseek(file, 0, SEEK_END) == 0) {
        long size = ftell(file);
        bytes = size >= 0 && fseek(file, 0, SEEK_SET) == 0 ? sqlite3_malloc64((sqlite3_uint64)size + 1) : NULL;
        if (bytes && fread(bytes, 1, (size_t)size, file) != (size_t)size) {
            sqlite3_free(bytes);
            bytes = NULL;
        }
        *length = (size_t)size;
    }
    if (file)
        fclose(file);
    return bytes;
}

/* Opens the table that the first arguments name, and says how many they are. */
static int open_table(rbbi_table *table, const char **args, int count, int *used) {
    const char *kind = count > 0 ? args[0] : "word";
    int is_file = strcmp(kind, "rules") == 0 || strcmp(kind, "table") == 0;
    size_t length = 0;
    char *bytes;
    int answer;
    *used = count > 0 ? 1 + is_file : 0;
    if (!is_file)
        return strcmp(kind, "word") == 0 && rbbi_table_named(table, kind) == RBBI_OK ? SQLITE_OK : SQLITE_ERROR;
    bytes = count > 1 ? read_file(args[1], &length) : NULL;
    if (!bytes)
        return SQLITE_ERROR;
    answer = strcmp(kind, "rules") == 0 ? rbbi_table_compile(table, NULL, bytes, length, 0, NULL)
                                        : rbbi_table_load(table, bytes, length, NULL);
    sqlite3_free(bytes);
    return answer == RBBI_OK ? SQLITE_OK : answer == RBBI_MEMORY ? SQLITE_NOMEM : SQLITE_ERROR;
}

/* Opens a tokenizer `unicode61` that folds, with the arguments that are left. */
static int open_folding(tokenizer *self, fts5_api *api, const char **args, int count) {
    const char *all[16] = {"categories", "L* M* N* P* S* Z* C*"};
    void *context = NULL;
    int status = api->xFindTokenizer(api, "unicode61", &context, &self->calls);
    if (status != SQLITE_OK || count > 14)
        return status != SQLITE_OK ? status : SQLITE_ERROR;
    memcpy(all + 2, args, (size_t)count * sizeof *args);
    return self->calls.xCreate(context, all, count + 2, &self->folding);
}

static int create(void *api, const char **args, int count, Fts5Tokenizer **made) {
    tokenizer *self = sqlite3_malloc64(sizeof *self);
    int used = 0, status;
    if (!self)
        return SQLITE_NOMEM;
    memset(self, 0, sizeof *self);
    status = open_table(&self->table, args, count, &used);
    if (status == SQLITE_OK)
        status = open_folding(self, api, args + used, count - used);
    if (status == SQLITE_OK)
        *made = (Fts5Tokenizer *)self;
    else
        discard((Fts5Tokenizer *)self);
    return status;
}

/* FTS5 of a connection, or NULL. */
static fts5_api *fts5_of(sqlite3 *db) {
    fts5_api *api = NULL;
    sqlite3_stmt *statement = NULL;
    if (sqlite3_prepare_v2(db, "SELECT fts5(?1)", -1, &statement, NULL) == SQLITE_OK) {
        sqlite3_bind_pointer(statement, 1, (void *)&api, "fts5_api_ptr", NULL);
        sqlite3_step(statement);
    }
    sqlite3_finalize(statement);
    return api;
}

int sqlite3_rbbifts_init(sqlite3 *db, char **error, const sqlite3_api_routines *routines) {
    static fts5_tokenizer calls = {create, discard, tokenize};
    SQLITE_EXTENSION_INIT2(routines)
    fts5_api *api = fts5_of(db);
    if (!api) {
        *error = sqlite3_mprintf("this SQLite has no FTS5");
        return SQLITE_ERROR;
    }
    return api->xCreateTokenizer(api, "rbbi", api, &calls, NULL);
}
