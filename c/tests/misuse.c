/* Misuse that can be seen is an answer, and leaves what there is: the status is 1 where one differs. */
#include <rbbi.h>
#include <stdio.h>
#include <stdlib.h>
#include <string.h>

static int wrong;

static void is(int line, int answer, int wanted) {
    if (answer != wanted) {
        printf("line %d: %d, and not %d\n", line, answer, wanted);
        wrong = 1;
    }
}

#define IS(answer, wanted) is(__LINE__, answer, wanted)

int main(void) {
    const char *rules = "[a-z]+; [0-9]+{100}; .;", *text = "ab 12";
    rbbi_files files = RBBI_INIT;
    rbbi_table table = RBBI_INIT, other = RBBI_INIT;
    rbbi_session session = RBBI_INIT, second = RBBI_INIT;
    rbbi_fault fault;
    uint32_t told = 77;
    size_t count;

    /* versions */
    IS(strcmp(rbbi_version(), RBBI_VERSION), 0);
    IS(strncmp(rbbi_unicode_version(), "18.", 3), 0);

    /* NULL */
    IS(rbbi_session_suppress(NULL, "a", 1, NULL), RBBI_NULL);
    IS(rbbi_session_tailor(&session, NULL, 1, NULL), RBBI_NULL);
    IS(rbbi_files_open(NULL), RBBI_NULL);
    IS(rbbi_table_compile(NULL, NULL, rules, strlen(rules), 0, NULL), RBBI_NULL);
    IS(rbbi_table_compile(&table, NULL, NULL, 3, 0, NULL), RBBI_NULL);
    IS(rbbi_session_open(&session, NULL, text, 5, RBBI_UTF8), RBBI_NULL);
    IS(rbbi_session_next(NULL, &told), RBBI_NULL);
    IS(rbbi_session_next(&session, NULL), RBBI_NULL);
    rbbi_table_close(NULL);
    rbbi_session_close(NULL);

    /* handles that hold nothing */
    IS(rbbi_session_next(&session, &told), RBBI_HANDLE);
    IS(told == 77, 1);
    IS(rbbi_session_open(&session, &table, text, 5, RBBI_UTF8), RBBI_HANDLE);
    IS(rbbi_files_add(&files, "X", "", 0, NULL), RBBI_HANDLE);
    rbbi_session_close(&session);

    /* faults */
    IS(rbbi_table_compile(&table, NULL, "a;\n$;", 5, 0, &fault), RBBI_FAULT);
    printf("%u:%u: %s\n", fault.line, fault.column, fault.name);
    IS(fault.byte == 3, 1);
    IS(strcmp(rbbi_fault_message(&fault), "no name follows"), 0);
    IS(strcmp(rbbi_fault_message(NULL), "this is no fault of rbbi"), 0);
    rbbi_fault *unended = malloc(sizeof *unended);
    if (unended) {
        memset(unended, 0xFF, sizeof *unended);
        IS(strcmp(rbbi_fault_message(unended), "this is no fault of rbbi"), 0);
        free(unended);
    }
    const char *marked = "\xef\xbb\xbf\xc3\xa4;\n\xc3\xa4$;";
    IS(rbbi_table_compile(&table, NULL, marked, 11, 0, &fault), RBBI_FAULT);
    IS(fault.line == 2 && fault.column == 2 && fault.byte == 9, 1);
    IS(rbbi_table_compile(&table, NULL, "a;\n\xc3\xa4 $", 7, 0, NULL), RBBI_FAULT);
    IS(rbbi_table_compile(&table, NULL, "\xff", 1, 0, &fault), RBBI_FAULT);
    printf("%u: %s\n", fault.byte, fault.name);
    IS(rbbi_table_load(&table, "RBBI", 4, &fault), RBBI_FAULT);
    printf("%s\n", fault.name);
    IS(rbbi_table_named(&table, NULL), RBBI_NULL);
    IS(rbbi_table_named(&table, "words"), RBBI_NAME);
    IS(rbbi_table_named(&other, "line"), RBBI_OK);
    IS(rbbi_table_named(&other, "word"), RBBI_HANDLE);
    rbbi_table_close(&other);
    IS(rbbi_files_open(&files), RBBI_OK);
    IS(rbbi_files_open(&files), RBBI_HANDLE);
    IS(rbbi_files_add(&files, "X", "0061 ; Y\nno\n", 12, &fault), RBBI_FAULT);
    printf("%u: %s\n", fault.line, fault.name);
    IS(rbbi_files_add(&files, "\xff", "", 0, &fault), RBBI_NOT_UTF8);
    IS(rbbi_files_add(&files, "X", "0061 ; Y\n", 9, &fault), RBBI_OK);
    IS(rbbi_table_compile(&other, &files, "\\p{X=Y};", 8, 0, &fault), RBBI_OK);
    rbbi_table_close(&other);

    /* what holds something, and another kind */
    IS(rbbi_table_compile(&table, NULL, rules, strlen(rules), 0, &fault), RBBI_OK);
    IS(rbbi_table_compile(&table, NULL, rules, strlen(rules), 0, &fault), RBBI_HANDLE);
    IS(rbbi_table_share(&other, &table), RBBI_OK);
    IS(rbbi_table_share(&other, &table), RBBI_HANDLE);
    IS(rbbi_session_next((rbbi_session *)&table, &told), RBBI_HANDLE);
    IS(rbbi_session_open(&session, &table, text, 5, 3), RBBI_UNIT);
    IS(rbbi_session_open(&session, &table, text, 5, -1), RBBI_UNIT);
    IS(rbbi_session_open(&session, &table, "\xc3(", 2, RBBI_UTF8), RBBI_NOT_UTF8);
    IS(rbbi_session_open(&session, &table, text, 5, RBBI_UTF16), RBBI_OK);
    IS(rbbi_session_open(&session, &table, text, 5, RBBI_UTF16), RBBI_HANDLE);
    IS(rbbi_session_open(&second, (rbbi_table *)&session, text, 5, RBBI_UTF16), RBBI_HANDLE);
    IS(rbbi_session_open(&second, &other, NULL, 0, RBBI_CHARS), RBBI_OK);
    rbbi_table_close(&table);
    rbbi_table_close(&other);
    rbbi_table_close(&other);

    /* questions and edits */
    IS(rbbi_session_next(&second, &told), RBBI_DONE);
    IS(told == 77, 1);
    IS(rbbi_session_next(&session, &told), RBBI_OK);
    IS(told == 2, 1);
    IS(rbbi_session_following(&session, 4000000000u, &told), RBBI_DONE);
    IS(rbbi_session_replace(&session, 4, 2, "", 0), RBBI_OUTSIDE);
    IS(rbbi_session_replace(&session, 5, 0, "\xf0\x9f\x98\x80", 4), RBBI_OK);
    IS(rbbi_session_replace(&session, 6, 0, "x", 1), RBBI_INSIDE);
    IS(rbbi_session_replace(&session, 0, 0, "\xf0\x9f", 2), RBBI_NOT_UTF8);
    IS(rbbi_session_replace(&session, 0, 0, NULL, 1), RBBI_NULL);
    IS(rbbi_session_length(&session, &told), RBBI_OK);
    IS(told == 7, 1);
    IS(rbbi_session_statuses(&session, NULL, 0, &count), RBBI_ROOM);
    IS(count == 1, 1);

    /* what an edit changed */
    rbbi_change change = {77, 78, 79};
    uint32_t resume = 77;
    IS(rbbi_session_replace_changed(&session, 0, 0, "x", 1, NULL), RBBI_NULL);
    IS(rbbi_session_replace_changed(&session, 0, 0, NULL, 1, &change), RBBI_NULL);
    IS(rbbi_session_replace_changed(&session, 6, 2, "", 0, &change), RBBI_OUTSIDE);
    IS(rbbi_session_replace_changed(&session, 4000000000u, 4000000000u, "", 0, &change), RBBI_OUTSIDE);
    IS(rbbi_session_replace_changed(&session, 5, 1, "", 0, &change), RBBI_INSIDE);
    IS(change.from == 77 && change.old_to == 78 && change.new_to == 79, 1);
    IS(rbbi_session_replace_changed(&session, 5, 2, "34 5", 4, &change), RBBI_OK);
    IS(change.from == 5 && change.old_to == 7 && change.new_to == 9, 1);
    IS(rbbi_session_replace_changed(&session, 5, 4, "\xf0\x9f\x98\x80", 4, &change), RBBI_OK);
    IS(change.from == 5 && change.old_to == 9 && change.new_to == 7, 1);
    IS(rbbi_session_redraw(&session, NULL, &told, &resume), RBBI_NULL);
    IS(rbbi_session_redraw(&session, &change, &told, NULL), RBBI_NULL);
    IS(rbbi_session_redraw(&session, &change, &told, &resume), RBBI_OK);
    IS(told == 3 && resume == 7, 1);
    IS(rbbi_session_redraw((rbbi_session *)&files, &change, &told, &resume), RBBI_HANDLE);

    /* many boundaries, a segment and the text */
    uint32_t places[2], statuses_of_two[2] = {77, 77};
    char room[4];
    IS(rbbi_session_boundaries(&session, 0, 9, NULL, NULL, 2, &count, &resume), RBBI_NULL);
    IS(rbbi_session_boundaries(&session, 0, 9, places, NULL, 2, &count, NULL), RBBI_NULL);
    IS(rbbi_session_boundaries(&session, 0, 9, places, NULL, 2, &count, &resume), RBBI_ROOM);
    IS(count == 2 && places[0] == 2 && places[1] == 3 && resume == 3, 1);
    IS(rbbi_session_boundaries(&session, resume, 9, places, NULL, 2, &count, &resume), RBBI_OK);
    IS(count == 2 && places[0] == 5 && places[1] == 7, 1);
    IS(rbbi_session_boundaries(&session, 2, 9, NULL, NULL, 0, &count, &resume), RBBI_ROOM);
    IS(count == 0 && resume == 2, 1);
    IS(rbbi_session_boundaries_before(&session, 4, 2, places, NULL, 2, &count, &resume), RBBI_OK);
    IS(count == 2 && places[0] == 3 && places[1] == 2, 1);
    IS(rbbi_session_boundaries(&second, 4000000000u, 5, places, NULL, 2, &count, &resume), RBBI_OK);
    IS(count == 0 && resume == 4000000000u, 1);
    IS(rbbi_session_segment(&session, 4, &told, &resume, NULL), RBBI_NULL);
    IS(rbbi_session_segment(&session, 6, &told, &resume, places), RBBI_OK);
    IS(told == 5 && resume == 7, 1);
    IS(rbbi_session_segment(&session, 7, &told, &resume, places), RBBI_DONE);
    IS(rbbi_session_text(&session, 3, 8, room, 4, &count), RBBI_OUTSIDE);
    IS(rbbi_session_text(&session, 3, 2, room, 4, &count), RBBI_OUTSIDE);
    IS(rbbi_session_text(&session, 3, 6, room, 4, &count), RBBI_INSIDE);
    IS(rbbi_session_text(&session, 3, 7, room, 4, &count), RBBI_ROOM);
    IS(count == 6 && memcmp(room, "12\xf0\x9f", 4) == 0, 1);
    IS(rbbi_session_text(&session, 1, 5, room, 4, &count), RBBI_OK);
    IS(count == 4 && memcmp(room, "b 12", 4) == 0, 1);
    IS(rbbi_session_text(&session, 3, 4, room, 4, &count), RBBI_OK);
    IS(count == 1 && memcmp(room, "1 12", 4) == 0, 1);

    /* UTF-16 */
    const uint16_t pair[] = {'x', 0xd83d, 0xde00, 'y'}, low[] = {'x', 0xdc00}, high[] = {0xd83d, 'y'};
    rbbi_session third = RBBI_INIT, fourth = RBBI_INIT;
    IS(rbbi_session_replace_utf16(&session, 0, 2, low, 2, &told), RBBI_LONE);
    IS(told == 1, 1);
    IS(rbbi_session_replace_utf16(&session, 0, 2, NULL, 1, &told), RBBI_NULL);
    IS(rbbi_session_replace_utf16(&session, 0, 8, pair, 4, NULL), RBBI_OUTSIDE);
    IS(rbbi_session_replace_utf16(&session, 0, 2, pair, 4, NULL), RBBI_OK);
    IS(rbbi_session_length(&session, &told), RBBI_OK);
    IS(told == 9, 1);
    IS(rbbi_session_open_utf16(&third, &table, pair, 4, RBBI_CHARS, NULL), RBBI_HANDLE);
    IS(rbbi_table_named(&table, "word"), RBBI_OK);
    IS(rbbi_session_open_utf16(&third, &table, high, 2, RBBI_CHARS, &told), RBBI_LONE);
    IS(told == 0, 1);
    IS(rbbi_session_open_utf16(&third, &table, pair, 4, 3, &told), RBBI_UNIT);
    IS(rbbi_session_open_utf16(&third, &table, pair, 4, RBBI_CHARS, NULL), RBBI_OK);
    IS(rbbi_session_length(&third, &told), RBBI_OK);
    IS(told == 3, 1);

    /* a second session over a copy of the text */
    IS(rbbi_session_fork(&third, NULL), RBBI_NULL);
    IS(rbbi_session_fork(NULL, &fourth), RBBI_NULL);
    IS(rbbi_session_fork(&second, &session), RBBI_HANDLE);
    IS(rbbi_session_fork((rbbi_session *)&table, &fourth), RBBI_HANDLE);
    IS(rbbi_session_fork(&third, &session), RBBI_HANDLE);
    IS(rbbi_session_following(&third, 0, &told), RBBI_OK);
    IS(rbbi_session_fork(&third, &fourth), RBBI_OK);
    IS(rbbi_session_current(&fourth, &resume), RBBI_OK);
    IS(told == 1 && resume == 1, 1);
    IS(rbbi_session_replace(&fourth, 0, 1, "", 0), RBBI_OK);
    IS(rbbi_session_length(&third, &told), RBBI_OK);
    IS(rbbi_session_length(&fourth, &resume), RBBI_OK);
    IS(told == 3 && resume == 2, 1);
    rbbi_session_close(&third);
    IS(rbbi_session_next(&fourth, &told), RBBI_OK);

    /* filters, also of files that are as long as they may be, or longer */
    static char long_list[65537];
    memset(long_list, '\n', sizeof long_list);
    IS(rbbi_session_suppress((rbbi_session *)&table, "a", 1, NULL), RBBI_HANDLE);
    IS(rbbi_session_suppress(&third, "a", 1, NULL), RBBI_HANDLE);
    IS(rbbi_session_suppress(&fourth, "a\xff", 2, &fault), RBBI_FAULT);
    IS(fault.byte == 1 && strcmp(fault.name, "NotUtf8") == 0, 1);
    IS(rbbi_session_suppress(&fourth, "a\n b\n", 5, &fault), RBBI_FAULT);
    IS(fault.line == 2 && strcmp(fault.name, "BadLine") == 0, 1);
    IS(rbbi_session_tailor(&fourth, "79;0061", 7, NULL), RBBI_FAULT);
    IS(rbbi_session_suppress(&fourth, long_list, 65537, &fault), RBBI_TOO_LONG);
    IS(rbbi_session_tailor(&fourth, long_list, 65537, &fault), RBBI_TOO_LONG);
    IS(rbbi_session_current(&fourth, &told), RBBI_OK);
    IS(told == 1, 1);
    memcpy(long_list + 65534, "a\n", 2);
    IS(rbbi_session_suppress(&fourth, long_list, 65536, &fault), RBBI_OK);
    IS(rbbi_session_current(&fourth, &told), RBBI_OK);
    IS(told == 0, 1);
    IS(rbbi_session_tailor(&fourth, "0079;0061", 9, NULL), RBBI_FILTERED);
    IS(rbbi_session_fork(&fourth, &third), RBBI_FILTERED);
    IS(rbbi_session_segment(&fourth, 0, &told, &resume, places), RBBI_FILTERED);
    IS(rbbi_session_replace(&fourth, 2, 1, "", 0), RBBI_OUTSIDE);
    IS(rbbi_session_text(&fourth, 1, 2, room, 4, &count), RBBI_OK);
    IS(count == 1 && room[0] == 'y', 1);
    rbbi_session_close(&fourth);

    /* a text that no session holds */
    uint64_t starts[2] = {77, 77}, ends[2] = {77, 77}, next = 77;
    count = 77;
    IS(rbbi_breaks(NULL, text, 5, 0, ends, NULL, 2, &count, &next), RBBI_NULL);
    IS(rbbi_breaks(&table, NULL, 5, 0, ends, NULL, 2, &count, &next), RBBI_NULL);
    IS(rbbi_breaks(&table, text, 5, 0, NULL, NULL, 2, &count, &next), RBBI_NULL);
    IS(rbbi_breaks(&table, text, 5, 0, ends, NULL, 2, NULL, &next), RBBI_NULL);
    IS(rbbi_breaks(&table, text, 5, 0, ends, NULL, 2, &count, NULL), RBBI_NULL);
    IS(rbbi_words(&table, text, 5, 0, NULL, ends, NULL, 2, &count, &next), RBBI_NULL);
    IS(rbbi_breaks(&other, text, 5, 0, ends, NULL, 2, &count, &next), RBBI_HANDLE);
    IS(rbbi_breaks((rbbi_table *)&session, text, 5, 0, ends, NULL, 2, &count, &next), RBBI_HANDLE);
    IS(rbbi_breaks(&table, text, 5, 6, ends, NULL, 2, &count, &next), RBBI_OUTSIDE);
    IS(count == 77 && next == 77 && ends[0] == 77, 1);
    IS(rbbi_breaks(&table, NULL, 0, 0, NULL, NULL, 0, &count, &next), RBBI_OK);
    IS(count == 0 && next == 0, 1);
    IS(rbbi_breaks(&table, "a b \xff", 5, 0, ends, NULL, 2, &count, &next), RBBI_ROOM);
    IS(count == 2 && next == 2 && ends[0] == 1 && ends[1] == 2, 1);
    IS(rbbi_breaks(&table, "a b \xff", 5, next, ends, NULL, 2, &count, &next), RBBI_NOT_UTF8);
    IS(count == 1 && next == 4 && ends[0] == 3 && ends[1] == 2, 1);
    IS(rbbi_breaks(&table, "\xc3\xa9", 2, 1, ends, NULL, 2, &count, &next), RBBI_NOT_UTF8);
    IS(count == 0 && next == 1, 1);
    IS(rbbi_breaks_utf16(&table, low, 2, 0, ends, statuses_of_two, 2, &count, &next), RBBI_LONE);
    IS(count == 0 && next == 1 && ends[0] == 3, 1);
    IS(rbbi_words(&table, ", \xe0\xb8\x81 7", 7, 0, starts, ends, statuses_of_two, 2, &count, &next), RBBI_OK);
    IS(count == 2 && next == 7 && starts[0] == 2 && ends[0] == 5 && starts[1] == 6 && ends[1] == 7, 1);
    IS(statuses_of_two[1], 100);

    /* tallies */
    rbbi_tally tally = RBBI_INIT, empty = RBBI_INIT;
    uint32_t statuses[2] = {77, 77}, counts[2] = {77, 77};
    IS(rbbi_tally_open(NULL, &table, text, 5, RBBI_UTF8), RBBI_NULL);
    IS(rbbi_tally_open(&tally, &table, NULL, 5, RBBI_UTF8), RBBI_NULL);
    IS(rbbi_tally_open(&tally, &other, text, 5, RBBI_UTF8), RBBI_HANDLE);
    IS(rbbi_tally_open(&tally, &table, text, 5, 3), RBBI_UNIT);
    IS(rbbi_tally_open(&tally, &table, "\xc3(", 2, RBBI_UTF8), RBBI_NOT_UTF8);
    IS(rbbi_tally_open(&tally, &table, "ab 12 \xf0\x9f\x98\x80", 10, RBBI_UTF16), RBBI_OK);
    IS(rbbi_tally_open(&tally, &table, text, 5, RBBI_UTF8), RBBI_HANDLE);
    IS(rbbi_tally_replace(&tally, 7, 1, NULL, 1), RBBI_NULL);
    IS(rbbi_tally_replace(&tally, 7, 1, "\xff", 1), RBBI_NOT_UTF8);
    IS(rbbi_tally_replace(&tally, 7, 1, "", 0), RBBI_INSIDE);
    IS(rbbi_tally_replace(&tally, 6, 1, "", 0), RBBI_INSIDE);
    IS(rbbi_tally_replace(&tally, 6, 3, "", 0), RBBI_OUTSIDE);
    IS(rbbi_tally_replace((rbbi_tally *)&session, 0, 1, "", 0), RBBI_HANDLE);
    IS(rbbi_tally_segments(&tally, NULL), RBBI_NULL);
    IS(rbbi_tally_segments(&tally, &told), RBBI_OK);
    IS(told == 5, 1);
    IS(rbbi_tally_count(&tally, 0, &told), RBBI_OK);
    IS(told == 3, 1);
    IS(rbbi_tally_each(&tally, NULL, counts, 1, &count), RBBI_NULL);
    IS(rbbi_tally_each(&tally, NULL, NULL, 0, &count), RBBI_ROOM);
    IS(count == 3, 1);
    IS(rbbi_tally_each(&tally, statuses, counts, 2, &count), RBBI_ROOM);
    IS(count == 3 && statuses[0] == 0 && counts[0] == 3 && statuses[1] == 100 && counts[1] == 1, 1);
    IS(rbbi_tally_replace(&tally, 0, 8, NULL, 0), RBBI_OK);
    IS(rbbi_tally_each(&tally, statuses, counts, 2, &count), RBBI_OK);
    IS(count == 0 && statuses[0] == 0, 1);
    IS(rbbi_tally_count(&empty, 0, &told), RBBI_HANDLE);
    IS(rbbi_tally_each(&empty, statuses, counts, 2, &count), RBBI_HANDLE);
    IS(rbbi_session_next((rbbi_session *)&tally, &told), RBBI_HANDLE);
    IS(told == 3 && count == 0, 1);
    rbbi_tally_close(&tally);
    rbbi_tally_close(&tally);
    rbbi_tally_close(NULL);

    rbbi_table_close(&table);
    rbbi_session_close(&session);
    rbbi_session_close(&session);
    rbbi_session_close(&second);
    rbbi_files_close(&files);
    IS(rbbi_session_next(&session, &told), RBBI_HANDLE);
    printf("misuse %s\n", wrong ? "differs" : "is told");
    return wrong;
}
