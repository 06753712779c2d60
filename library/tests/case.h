/* A stored case of wtround_cases: the words of a call, its input and its pages, and what is wanted of it. */
#ifndef CASE_H
#define CASE_H

#include "../wtround.h"

#include <stdbool.h>

struct bytes {
    char *at;
    size_t length;
};

struct test_case {
    wtround_text *words;
    size_t word_count;
    struct bytes input;
    wtround_page *pages;
    size_t page_count;
    int status;
    struct bytes out;
    struct bytes line;
};

/* What a line of cases and one of answers are. */
enum read_case {
    CASE_READ,
    CASE_OF_DEVICES, /* its devices fail or take few bytes at once, which those of the library don't */
    CASE_MALFORMED   /* the line is no case, and `malformed` is wanted */
};

enum read_case read_case(struct test_case *into, char *asked, char *wanted);
void free_case(struct test_case *it);

/* How many bytes its input and its pages have. */
size_t text_length(const struct test_case *it);

/* A room that was filled as far as needed, and what the call ended with. */
struct reply {
    int status;
    wtround_room out;
    wtround_room line;
};

/* Calls until each room is large enough; by the table, or by a callback over it. */
struct reply call_by_table(const struct test_case *it);
struct reply call_by_callback(const struct test_case *it);
void free_reply(struct reply *it);

bool is_wanted(const struct test_case *it, const struct reply *reply);

#endif
