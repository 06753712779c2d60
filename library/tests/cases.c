/* Runs stored cases through the library, by its table and by its callback; those of large texts, which take
 * most of the time, by one of the two in turn.
 *
 *   cases CASES ANSWERS     a case and its answer a line each, as wtround_cases reads and writes them
 */
#include "case.h"

#include <stdio.h>
#include <stdlib.h>

#define LARGE 262144

static int failed;

static void check(const char *way, long line, const struct test_case *it, struct reply reply)
{
    if (!is_wanted(it, &reply)) {
        printf("line %ld by the %s: status %d and %.*s, where status %d and %.*s are wanted\n", line, way,
               reply.status, (int)reply.line.length, reply.line.bytes, it->status, (int)it->line.length,
               it->line.at);
        failed = 1;
    }
    free_reply(&reply);
}

int main(int argc, char **argv)
{
    long counts[3] = { 0 };
    char *asked = NULL, *wanted = NULL;
    size_t asked_room = 0, wanted_room = 0;
    FILE *cases = argc == 3 ? fopen(argv[1], "r") : NULL;
    FILE *answers = argc == 3 ? fopen(argv[2], "r") : NULL;
    if (!cases || !answers) {
        fprintf(stderr, "usage: cases CASES ANSWERS\n");
        return 2;
    }
    for (long line = 1;
         getline(&asked, &asked_room, cases) > 0 && getline(&wanted, &wanted_room, answers) > 0; line++) {
        struct test_case it = { 0 };
        enum read_case read = read_case(&it, asked, wanted);
        counts[read]++;
        if (read == CASE_READ) {
            bool is_large = text_length(&it) > LARGE;
            if (!is_large || line % 2 == 0)
                check("table", line, &it, call_by_table(&it));
            if (!is_large || line % 2 == 1)
                check("callback", line, &it, call_by_callback(&it));
            free_case(&it);
        }
    }
    printf("%ld cases through the library by a table and by a callback, %ld of failing devices skipped: %s\n",
           counts[CASE_READ], counts[CASE_OF_DEVICES],
           failed              ? "failed"
           : counts[CASE_READ] ? "passed"
                               : "none");
    return failed || counts[CASE_READ] == 0;
}
