/*
 * Runs a C program beside the engine as `rt try` builds it. bin/try-c compiles this.
 *
 * In a program, Rattle calls C, but C can't call Rattle. So the C program runs in a thread of its own,
 * and hands each call of the library over to the first thread, on which Rattle asks for the next call,
 * makes it, and answers. One call is handed over at a time.
 *
 * The first word of the command line is the folder that the C program runs in. The others are its own:
 * its name and its arguments.
 */
#define _POSIX_C_SOURCE 200809L
#include <pthread.h>
#include <stdint.h>
#include <stdio.h>
#include <stdlib.h>
#include <string.h>
#include <unistd.h>

/* Where an environment could be, there is one pointer, which is NULL. */
static char *nothing[1];

/* The function main of the C program. */
int main_of_the_C_program(int, char **, char **);

static pthread_mutex_t turn = PTHREAD_MUTEX_INITIALIZER;
static pthread_mutex_t lock = PTHREAD_MUTEX_INITIALIZER;
static pthread_cond_t changed = PTHREAD_COND_INITIALIZER;
static enum { NONE, MADE, TAKEN, ANSWERED } state;
static uint32_t number, answer;
static uintptr_t words[16];
static int arguments;
static char **argument;

__attribute__((constructor)) static void keep(int count, char **all) {
    arguments = count;
    argument = all;
}

static void *run(void *unused) {
    (void)unused;
    exit(main_of_the_C_program(arguments - 2, argument + 2, nothing));
}

/* Starts the C program. */
static void start(void) {
    pthread_t thread;
    if (arguments < 3 || chdir(argument[1]) != 0 || pthread_create(&thread, NULL, run, NULL) != 0) {
        fprintf(stderr, "try-c: the program can't be started\n");
        exit(9);
    }
}

/* Goes to the next state, of which the other thread is told. */
static void go(int next) {
    state = next;
    pthread_cond_broadcast(&changed);
}

static void await(int wanted) {
    while ((int)state != wanted) {
        pthread_cond_wait(&changed, &lock);
    }
}

/* Waits for the next call, and gives its number. The C program starts with the first. */
uint32_t rbbi_try_next(void) {
    static pthread_once_t once = PTHREAD_ONCE_INIT;
    pthread_once(&once, start);
    pthread_mutex_lock(&lock);
    await(MADE);
    state = TAKEN;
    pthread_mutex_unlock(&lock);
    return number;
}

/* An argument of the call, as a pointer or a number. */
void *rbbi_try_pointer(uint32_t at) {
    return (void *)words[at];
}

size_t rbbi_try_number(uint32_t at) {
    return words[at];
}

/* Answers the call. */
void rbbi_try_answer(uint32_t code) {
    pthread_mutex_lock(&lock);
    answer = code;
    go(ANSWERED);
    pthread_mutex_unlock(&lock);
}

/* Hands a call over, and waits for its answer. */
uint32_t rbbi_try_call(uint32_t call, const uintptr_t *given, size_t count) {
    pthread_mutex_lock(&turn);
    pthread_mutex_lock(&lock);
    memcpy(words, given, count * sizeof *given);
    number = call;
    go(MADE);
    await(ANSWERED);
    state = NONE;
    uint32_t found = answer;
    pthread_mutex_unlock(&lock);
    pthread_mutex_unlock(&turn);
    return found;
}
