/* Runs the smaller stored cases through the library in eight threads at once, each with a stack of 1 MiB and
 * with its share of the cases; before them each answers its share of what nests as deep as the limits allow.
 *
 *   threads CASES ANSWERS
 */
#include "case.h"

#include <pthread.h>
#include <stdio.h>
#include <stdlib.h>
#include <string.h>

#define THREADS 8
#define STACK (1024 * 1024)

struct work {
    char **asked, **wanted;
    long count;
    long thread;
    long passed, failed;
};

/* ---- what nests deep */

struct builder {
    char *at;
    size_t length;
};

static void put(struct builder *it, const char *text)
{
    size_t length = strlen(text);
    it->at = realloc(it->at, it->length + length + 1);
    if (!it->at)
        exit(2);
    memcpy(it->at + it->length, text, length + 1);
    it->length += length;
}

/* `open` so many times, `inside`, and `close` as often. */
static struct builder nested(size_t depth, const char *open, const char *inside, const char *close)
{
    struct builder it = { NULL, 0 };
    for (size_t i = 0; i < depth; i++)
        put(&it, open);
    put(&it, inside);
    for (size_t i = 0; i < depth; i++)
        put(&it, close);
    return it;
}

/* Gives the page that is being tried, a template that shows its argument, and for each template of a number
 * one that calls the next. Each of these takes a round, so they are called once alone. */
static int64_t give_deep(void *context, const char *name, size_t name_length, char *out, size_t room)
{
    const struct builder *page = context;
    char text[64];
    if (name_length == 4 && memcmp(name, "Deep", 4) == 0) {
        memcpy(out, page->at, page->length < room ? page->length : room);
        return (int64_t)page->length;
    }
    if (name_length == 10 && memcmp(name, "Template:T", 10) == 0) {
        memcpy(out, "a {{{1}}} b", 11);
        return 11;
    }
    if (name_length > 10 && name_length < 15 && memcmp(name, "Template:N", 10) == 0) {
        snprintf(text, sizeof text, "a {{N%d|{{{1}}}}} b", atoi(name + 10) + 1);
        memcpy(out, text, strlen(text));
        return (int64_t)strlen(text);
    }
    return WTROUND_ABSENT;
}

static bool answers(const char *command, const struct builder *page, const char *input, size_t input_length,
                    wtround_room *out)
{
    wtround_text words[] = { { command, strlen(command) }, { "Deep", 4 } };
    char line_bytes[1024];
    wtround_room line = { line_bytes, sizeof line_bytes, 0 };
    size_t count = strcmp(command, "wikitext") == 0 ? 1 : 2;
    int status;
    do {
        if (out->length > out->room) {
            free(out->bytes);
            out->bytes = malloc(out->length);
            out->room = out->length;
        }
        status = wtround_run(words, count, input, input_length, give_deep, (void *)page, out, &line);
    } while (status == WTROUND_SHORT);
    if (status > WTROUND_EDIT_REFUSED) {
        printf("%s: status %d\n", command, status);
        return false;
    }
    return true;
}

/* A page there and back, and its HTML as an edit; where it is refused, that is an answer too. */
static bool goes_deep(struct builder page)
{
    wtround_room html = { 0 }, back = { 0 };
    bool good =
        answers("html", &page, NULL, 0, &html) && answers("ranges", &page, NULL, 0, &back)
        && answers("wikitext", &page, html.bytes, html.length, &back)
        && (html.length == 0 || (back.length == page.length && memcmp(back.bytes, page.at, page.length) == 0))
        && answers("edit", &page, html.bytes, html.length, &back)
        && (html.length == 0
            || (back.length == page.length && memcmp(back.bytes, page.at, page.length) == 0));
    free(html.bytes);
    free(back.bytes);
    free(page.at);
    return good;
}

/* HTML that is read to its innermost element; it isn't a page, but it is read. */
static bool reads_deep(size_t depth)
{
    struct builder html = nested(depth, "<b>", "x", "</b>"), none = { NULL, 0 };
    wtround_room out = { 0 };
    bool good = answers("wikitext", &none, html.at, html.length, &out);
    free(out.bytes);
    free(html.at);
    return good;
}

/* What opens, what stands inside, what closes. */
static const char *const kinds[][3] = {
    { "{{T|", "x", "}}" },
    { "{{{1|", "x", "}}}" },
    { "{|\n|\n", "x\n", "\n|}\n" },
    { "<small>", "x", "</small>" },
    { "[[A|", "x", "]]" },
    { "*", "x", "" },
    { "*:;", "x", "" },
    { "''a'''b", "x", "" },
    { "<ref>", "x", "</ref>" },
    { "<includeonly>", "x", "</includeonly>" },
};

#define KINDS ((long)(sizeof kinds / sizeof *kinds))
#define DEEPEST 1280

/* Each thread has each eighth of the kinds, then each eighth of the depths of HTML, and the first one a chain
 * of templates. */
static long deep_failures(long thread)
{
    long failures = 0;
    for (long kind = thread; kind < KINDS; kind += THREADS)
        for (size_t depth = 10; depth <= DEEPEST; depth *= 2)
            failures += !goes_deep(nested(depth, kinds[kind][0], kinds[kind][1], kinds[kind][2]));
    failures += !reads_deep(thread < 6 ? (size_t)40 << thread : thread == 6 ? 199 : 200);
    if (thread == 0)
        failures += !goes_deep(nested(1, "{{N1|", "x", "}}"));
    return failures;
}

/* ---- the stored cases */

/* Cases of larger texts take much memory, eight at once. */
#define SMALL 65536

static void try_case(struct work *work, long number)
{
    struct test_case it = { 0 };
    char *asked = strdup(work->asked[number]), *wanted = strdup(work->wanted[number]);
    if (asked && wanted && read_case(&it, asked, wanted) == CASE_READ) {
        if (text_length(&it) < SMALL) {
            struct reply reply = number / THREADS % 2 ? call_by_table(&it) : call_by_callback(&it);
            *(is_wanted(&it, &reply) ? &work->passed : &work->failed) += 1;
            free_reply(&reply);
        }
        free_case(&it);
    }
    free(asked);
    free(wanted);
}

static void *run_all(void *at)
{
    struct work *work = at;
    work->failed += deep_failures(work->thread);
    for (long number = work->thread; number < work->count; number += THREADS)
        try_case(work, number);
    return NULL;
}

static long read_lines(const char *path, char ***lines)
{
    FILE *file = fopen(path, "r");
    long count = 0;
    size_t room = 0;
    char *line = NULL;
    while (file && getline(&line, &room, file) > 0) {
        *lines = realloc(*lines, (size_t)(count + 1) * sizeof **lines);
        (*lines)[count++] = line;
        line = NULL;
        room = 0;
    }
    if (file)
        fclose(file);
    return count;
}

int main(int argc, char **argv)
{
    char **asked = NULL, **wanted = NULL;
    struct work work[THREADS];
    pthread_t threads[THREADS];
    pthread_attr_t attributes;
    long count = argc == 3 ? read_lines(argv[1], &asked) : 0, passed = 0, failed = 0;
    if (count == 0 || read_lines(argv[2], &wanted) != count) {
        fprintf(stderr, "usage: threads CASES ANSWERS\n");
        return 2;
    }
    pthread_attr_init(&attributes);
    if (pthread_attr_setstacksize(&attributes, STACK) != 0)
        return 2;
    for (long i = 0; i < THREADS; i++) {
        work[i] = (struct work){ asked, wanted, count, i, 0, 0 };
        if (pthread_create(&threads[i], &attributes, run_all, &work[i]) != 0)
            return 2;
    }
    for (int i = 0; i < THREADS; i++) {
        pthread_join(threads[i], NULL);
        passed += work[i].passed;
        failed += work[i].failed;
    }
    printf("%ld answers in %d threads at once, each with a stack of 1 MiB: %s\n", passed, THREADS,
           failed ? "failed" : "passed");
    return failed || passed == 0;
}
