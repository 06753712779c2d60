/* What a C caller may get wrong, and what may fail in a callback: each ends in a status. */
#include "../wtround.h"

#include <stdbool.h>
#include <stdio.h>
#include <stdlib.h>
#include <string.h>

static int failures;

static void check(bool good, const char *what)
{
    if (!good) {
        printf("%s: failed\n", what);
        failures++;
    }
}

struct answered {
    int64_t with; /* what the callback answers, or the length of its page of letters */
    size_t most_room;
    int calls;
};

static int64_t answer_with(void *context, const char *name, size_t name_length, char *out, size_t room)
{
    struct answered *it = context;
    (void)name;
    (void)name_length;
    it->calls++;
    it->most_room = room > it->most_room ? room : it->most_room;
    if (it->with > 0)
        memset(out, 'a', (uint64_t)it->with < room ? (size_t)it->with : room);
    return it->with;
}

static wtround_text words[] = { { "html", 4 }, { "Main", 4 } };
static char out_bytes[4096], line_bytes[256], missing_bytes[256];
static wtround_room out, line, missing;

static void fresh(void)
{
    memset(out_bytes, '#', sizeof out_bytes);
    out = (wtround_room){ out_bytes, sizeof out_bytes, 7 };
    line = (wtround_room){ line_bytes, sizeof line_bytes, 7 };
    missing = (wtround_room){ missing_bytes, sizeof missing_bytes, 7 };
}

static bool is_line(const char *wanted)
{
    return line.length == strlen(wanted) && memcmp(line_bytes, wanted, line.length) == 0;
}

static void try_callbacks(void)
{
    struct {
        int64_t with;
        int status;
        const char *told;
    } tries[] = {
        { 5, WTROUND_DONE, "" },
        { 0, WTROUND_DONE, "" },
        { WTROUND_ABSENT, WTROUND_PAGE_REFUSED, "wtround: no such page\n" },
        { WTROUND_FETCH_FAILED, WTROUND_FOLDER_FAULT, "wtround: folder fault\n" },
        { -4, WTROUND_FOLDER_FAULT, "wtround: folder fault\n" },
        { INT64_MIN, WTROUND_FOLDER_FAULT, "wtround: folder fault\n" },
        { WTROUND_FETCH_NO_MEMORY, WTROUND_NO_MEMORY, "wtround: no memory\n" },
        { WTROUND_PAGE_BYTES + 1, WTROUND_PAGE_REFUSED, "wtround: page too long\n" },
        { INT64_MAX, WTROUND_PAGE_REFUSED, "wtround: page too long\n" },
    };
    for (size_t i = 0; i < sizeof tries / sizeof *tries; i++) {
        struct answered it = { tries[i].with, 0, 0 };
        fresh();
        check(wtround_run(words, 2, NULL, 0, answer_with, &it, &out, &line) == tries[i].status
                  && is_line(tries[i].told) && it.most_room <= WTROUND_PAGE_BYTES + 1,
              tries[i].told);
    }
}

static void try_null_pointers(void)
{
    struct answered it = { 5, 0, 0 };
    wtround_text bad_word[] = { { "html", 4 }, { NULL, 0 } };
    wtround_page page = { { "Main", 4 }, { NULL, 0 }, WTROUND_PAGE_FOUND };
    wtround_room bad = { NULL, 1, 0 };
    fresh();
    check(wtround_run(NULL, 2, NULL, 0, answer_with, &it, &out, &line) == WTROUND_BAD_CALL, "null words");
    check(wtround_run(bad_word, 2, NULL, 0, answer_with, &it, &out, &line) == WTROUND_BAD_CALL,
          "a null word");
    check(wtround_run(words, 2, NULL, 1, answer_with, &it, &out, &line) == WTROUND_BAD_CALL, "a null input");
    check(wtround_run(words, 2, NULL, 0, NULL, &it, &out, &line) == WTROUND_BAD_CALL, "a null callback");
    check(wtround_run(words, 2, NULL, 0, answer_with, &it, NULL, &line) == WTROUND_BAD_CALL, "no out");
    check(wtround_run(words, 2, NULL, 0, answer_with, &it, &out, NULL) == WTROUND_BAD_CALL, "no line");
    check(wtround_run(words, 2, NULL, 0, answer_with, &it, &bad, &line) == WTROUND_BAD_CALL, "a null room");
    check(wtround_answer(words, 2, NULL, 0, NULL, 1, &out, &line, &missing) == WTROUND_BAD_CALL,
          "a null table");
    check(wtround_answer(words, 2, NULL, 0, &page, 1, &out, &line, &missing) == WTROUND_BAD_CALL,
          "a null text");
    check(wtround_answer(words, 2, NULL, 0, NULL, 0, &out, &line, NULL) == WTROUND_BAD_CALL, "no missing");
    check(it.calls == 0 && out.length == 7 && line.length == 7, "a bad call does nothing");
    check(wtround_run(NULL, 0, NULL, 0, answer_with, &it, &out, &line) == WTROUND_USAGE, "no words");
    check(wtround_answer(words, 2, NULL, 0, NULL, 0, &out, &line, &missing) == WTROUND_MISSING
              && missing.length == 5 && memcmp(missing_bytes, "Main", 5) == 0,
          "an empty table");
}

static void try_overlaps_and_lengths(void)
{
    struct answered it = { 5, 0, 0 };
    fresh();
    check(wtround_run(words, 2, out_bytes + 10, 5, answer_with, &it, &out, &line) == WTROUND_BAD_CALL,
          "input in a room");
    line.bytes = out_bytes + 5;
    check(wtround_run(words, 2, NULL, 0, answer_with, &it, &out, &line) == WTROUND_BAD_CALL,
          "rooms that overlap");
    fresh();
    check(wtround_run(words, 2, NULL, 0, answer_with, &it, &out, &out) == WTROUND_BAD_CALL, "one room twice");
    check(wtround_run(words, SIZE_MAX, NULL, 0, answer_with, &it, &out, &line) == WTROUND_BAD_CALL,
          "too many words");
    check(wtround_run(words, 2, out_bytes, SIZE_MAX, answer_with, &it, &out, &line) == WTROUND_BAD_CALL,
          "too long an input");
    out.room = SIZE_MAX;
    check(wtround_run(words, 2, NULL, 0, answer_with, &it, &out, &line) == WTROUND_BAD_CALL,
          "too large a room");
}

static void try_short_rooms(void)
{
    struct answered it = { 5, 0, 0 };
    size_t needed, k;
    bool none = true;
    fresh();
    check(wtround_run(words, 2, NULL, 0, answer_with, &it, &out, &line) == WTROUND_DONE, "room enough");
    needed = out.length;
    for (k = 0; k <= needed; k++) {
        fresh();
        out.room = k;
        int status = wtround_run(words, 2, NULL, 0, answer_with, &it, &out, &line);
        check(status == (k < needed ? WTROUND_SHORT : WTROUND_DONE) && out.length == needed
                  && line.length == 0,
              "a short room");
        none = none && (k == needed || out_bytes[0] == '#') && out_bytes[needed] == '#';
    }
    check(none, "a short room is left as it is, and nothing is written behind the text");
    it.with = WTROUND_ABSENT;
    fresh();
    line = (wtround_room){ NULL, 0, 7 };
    check(wtround_run(words, 2, NULL, 0, answer_with, &it, &out, &line) == WTROUND_SHORT && line.length == 22
              && out.length == 0,
          "a short line");
    fresh();
    missing.room = 4;
    check(wtround_answer(words, 2, NULL, 0, NULL, 0, &out, &line, &missing) == WTROUND_SHORT
              && missing.length == 5 && out.length == 0 && line.length == 0,
          "short room for names");
}

int main(void)
{
    try_callbacks();
    try_null_pointers();
    try_overlaps_and_lengths();
    try_short_rooms();
    printf("null pointers, overlaps, short rooms and failing callbacks: %s\n",
           failures ? "failed" : "passed");
    return failures != 0;
}
