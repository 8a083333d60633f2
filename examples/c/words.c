/* Prints the words of a text, edits it, and prints them again: words RULES TEXT. */
#include <rbbi.h>
#include <stdio.h>
#include <stdlib.h>

/* The bytes of a file, and how many they are. */
static char *bytes_of(const char *name, size_t *length) {
    FILE *file = fopen(name, "rb");
    char *bytes = malloc(1 << 20);
    if (!file || !bytes) {
        fprintf(stderr, "words: %s can't be read\n", name);
        exit(1);
    }
    *length = fread(bytes, 1, 1 << 20, file);
    fclose(file);
    return bytes;
}

/* Ends with a message, unless the answer is no error. */
static int checked(int answer) {
    if (answer > RBBI_DONE) {
        fprintf(stderr, "words: %s\n", rbbi_message(answer));
        exit(1);
    }
    return answer;
}

/* Prints each segment, from boundary to boundary, with the status of its end. */
static void print(rbbi_session *session) {
    uint32_t from, to, status;
    checked(rbbi_session_first(session, &from));
    while (checked(rbbi_session_next(session, &to)) == RBBI_OK) {
        checked(rbbi_session_status(session, &status));
        printf("%s%u-%u:%u", from ? " " : "", from, to, status);
        from = to;
    }
    printf("\n");
}

int main(int count, char **words) {
    if (count != 3) {
        fprintf(stderr, "words RULES TEXT\n");
        return 2;
    }
    size_t length;
    char *rules = bytes_of(words[1], &length);
    rbbi_table table = RBBI_INIT;
    rbbi_fault fault;
    int answer = rbbi_table_compile(&table, NULL, rules, length, 0, &fault);
    if (answer == RBBI_FAULT) {
        fprintf(stderr, "words: %u:%u: %s\n", fault.line, fault.column, fault.name);
        return 1;
    }
    checked(answer);
    char *text = bytes_of(words[2], &length);
    rbbi_session session = RBBI_INIT;
    checked(rbbi_session_open(&session, &table, text, length, RBBI_UTF8));
    rbbi_table_close(&table); /* the session keeps the table */
    print(&session);
    checked(rbbi_session_replace(&session, 3, 1, "no", 2)); /* can't -> cannot */
    print(&session);
    rbbi_session_close(&session);
    free(rules);
    free(text);
    return 0;
}
