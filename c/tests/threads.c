/*
 * Several threads pass the handle of one table at once: each opens sessions and a tally by it, asks,
 * edits, asks for the boundaries of a text in one call, feeds a text in two pieces, writes the table and makes handles of its own.
 * All find what the first thread finds alone. tools/check/c runs this under ThreadSanitizer, and under
 * helgrind, which sees the proved code as well.
 */
#include <pthread.h>
#include <rbbi.h>
#include <stdio.h>
#include <string.h>

#define THREADS 8
#define ROUNDS 50

static const char text[] = "can't 32.3. \xce\xb1\xce\xb2, and the rest of it; 7 words more.";
static rbbi_table table = RBBI_INIT;

/* What one round finds: a sum over all boundaries, before and after an edit. */
typedef struct {
    uint64_t sum;
    size_t length;
    int wrong;
} found;

static uint64_t sum_of(rbbi_session *session, int *wrong) {
    uint64_t sum = 0;
    uint32_t place = 0, status = 0;
    *wrong |= rbbi_session_first(session, &place) != RBBI_OK;
    while (rbbi_session_next(session, &place) == RBBI_OK) {
        *wrong |= rbbi_session_status(session, &status) != RBBI_OK;
        sum = sum * 31 + place * 1000 + status;
    }
    return sum;
}

static found round_of(void) {
    found result = {0, 0, 0};
    char file[1 << 17];
    rbbi_table own = RBBI_INIT;
    rbbi_session one = RBBI_INIT, other = RBBI_INIT;
    rbbi_tally tally = RBBI_INIT;
    uint32_t segments = 0;
    result.wrong |= rbbi_session_open(&one, &table, text, sizeof text - 1, RBBI_UTF8) != RBBI_OK;
    result.wrong |= rbbi_table_share(&own, &table) != RBBI_OK;
    result.wrong |= rbbi_session_open(&other, &own, text, sizeof text - 1, RBBI_UTF16) != RBBI_OK;
    result.wrong |= rbbi_tally_open(&tally, &table, text, sizeof text - 1, RBBI_UTF8) != RBBI_OK;
    result.wrong |= rbbi_tally_segments(&tally, &segments) != RBBI_OK;
    rbbi_tally_close(&tally);
    rbbi_table_close(&own);
    uint64_t places[64], resume = 0;
    uint32_t statuses[64];
    size_t count = 0;
    result.wrong |= rbbi_breaks(&table, text, sizeof text - 1, 0, places, statuses, 64, &count,
                                &resume) != RBBI_OK;
    result.wrong |= count != segments || resume != sizeof text - 1;
    rbbi_scan scan = RBBI_INIT;
    result.wrong |= rbbi_scan_open(&scan, &table, RBBI_UTF8, 0) != RBBI_OK;
    result.wrong |= rbbi_scan_feed(&scan, text, 20, 0) != RBBI_OK;
    result.wrong |= rbbi_scan_feed(&scan, text + 20, sizeof text - 21, 1) != RBBI_OK;
    result.wrong |= rbbi_scan_next(&scan, NULL, places, statuses, 64, &count, &resume) != RBBI_OK;
    result.wrong |= count != segments || resume != sizeof text - 1;
    rbbi_scan_close(&scan);
    result.wrong |= rbbi_table_write(&table, file, sizeof file, &result.length) != RBBI_OK;
    result.sum = sum_of(&one, &result.wrong) + sum_of(&other, &result.wrong) + segments;
    result.wrong |= rbbi_session_replace(&one, 3, 1, "no", 2) != RBBI_OK;
    result.sum = result.sum * 31 + sum_of(&one, &result.wrong);
    rbbi_session_close(&one);
    rbbi_session_close(&other);
    return result;
}

static void *rounds(void *wanted) {
    const found *alone = wanted;
    for (int i = 0; i < ROUNDS; i++) {
        found result = round_of();
        if (result.wrong || result.sum != alone->sum || result.length != alone->length) {
            return wanted;
        }
    }
    return NULL;
}

int main(void) {
    if (rbbi_table_named(&table, "word") != RBBI_OK) {
        return 2;
    }
    found alone = round_of();
    pthread_t threads[THREADS];
    int wrong = alone.wrong;
    for (int i = 0; i < THREADS; i++) {
        if (pthread_create(&threads[i], NULL, rounds, &alone) != 0) {
            return 2;
        }
    }
    for (int i = 0; i < THREADS; i++) {
        void *result = NULL;
        pthread_join(threads[i], &result);
        wrong |= result != NULL;
    }
    rbbi_table_close(&table);
    printf("threads %s\n", wrong ? "differ" : "agree");
    return wrong;
}
