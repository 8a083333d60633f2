/*
 * A process that forks while its threads pass the handle of one table on: each child opens a session by
 * that table and asks it. A child that waits for a lock whose owner it doesn't have is ended by a signal.
 */
#define _POSIX_C_SOURCE 200809L
#include <pthread.h>
#include <rbbi.h>
#include <stdio.h>
#include <sys/wait.h>
#include <unistd.h>

#define THREADS 4
#define FORKS 100

static rbbi_table table = RBBI_INIT;
static pthread_mutex_t lock = PTHREAD_MUTEX_INITIALIZER;
static int ended;

static int has_ended(void) {
    pthread_mutex_lock(&lock);
    int answer = ended;
    pthread_mutex_unlock(&lock);
    return answer;
}

static void *share(void *unused) {
    while (!has_ended()) {
        for (int i = 0; i < 1000; i++) {
            rbbi_table own = RBBI_INIT;
            if (rbbi_table_share(&own, &table) != RBBI_OK) {
                return &table;
            }
            rbbi_table_close(&own);
        }
    }
    return unused;
}

/* What a child does; its status. */
static int asked(void) {
    rbbi_session session = RBBI_INIT;
    uint32_t place = 0;
    alarm(60);
    return rbbi_session_open(&session, &table, "can't 32", 8, RBBI_UTF8) != RBBI_OK ||
           rbbi_session_next(&session, &place) != RBBI_OK || place != 5;
}

int main(void) {
    pthread_t threads[THREADS];
    int wrong = rbbi_table_named(&table, "word") != RBBI_OK;
    for (int i = 0; i < THREADS; i++) {
        if (pthread_create(&threads[i], NULL, share, NULL) != 0) {
            return 2;
        }
    }
    for (int i = 0; i < FORKS && !wrong; i++) {
        int status = 0;
        pid_t child = fork();
        if (child == 0) {
            _exit(asked());
        }
        wrong |= child < 0 || waitpid(child, &status, 0) != child || status != 0;
    }
    pthread_mutex_lock(&lock);
    ended = 1;
    pthread_mutex_unlock(&lock);
    for (int i = 0; i < THREADS; i++) {
        void *result = NULL;
        pthread_join(threads[i], &result);
        wrong |= result != NULL;
    }
    rbbi_table_close(&table);
    printf("forks %s\n", wrong ? "differ" : "agree");
    return wrong;
}
