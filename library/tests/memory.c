/* Each allocation of a call failing in turn, and each from one on: the call ends with a status, gives all
 * memory back, and writes nothing but the answer that it gives with ample memory. To be linked with
 * -Wl,--wrap=malloc,--wrap=realloc,--wrap=free,--wrap=calloc. */
#include "../wtround.h"

#include <stdbool.h>
#include <stdio.h>
#include <stdlib.h>
#include <string.h>

void *__real_malloc(size_t size);
void *__real_realloc(void *at, size_t size);
void __real_free(void *at);

static long made, failing, failing_to, held;

static bool fails(void)
{
    made++;
    return made >= failing && made <= failing_to;
}

void *__wrap_malloc(size_t size)
{
    void *at = fails() ? NULL : __real_malloc(size);
    held += at != NULL;
    return at;
}

void *__wrap_realloc(void *at, size_t size)
{
    void *moved = fails() ? NULL : __real_realloc(at, size);
    held += moved && !at;
    return moved;
}

void *__wrap_calloc(size_t count, size_t size)
{
    void *at = fails() ? NULL : __real_malloc(count * size);
    held += at != NULL;
    return at ? memset(at, 0, count * size) : NULL;
}

void __wrap_free(void *at)
{
    held -= at != NULL;
    __real_free(at);
}

static const char page[] =
    "'''Main''' {{T|[[A|b]]|n=c}}\n* one\n** two\n{|\n! a\n|-\n| b || {{T|d}}\n|}\n<!-- c -->{{Absent}}\n";
static const char template[] = "''{{{1}}}'' {{{n|x}}} {{U}}";

static int64_t give(void *context, const char *name, size_t name_length, char *out, size_t room)
{
    const char *text = name_length == 4 && memcmp(name, "Main", 4) == 0           ? page
                       : name_length == 10 && memcmp(name, "Template:T", 10) == 0 ? template
                       : name_length == 10 && memcmp(name, "Template:U", 10) == 0 ? "u"
                                                                                  : NULL;
    (void)context;
    if (!text)
        return WTROUND_ABSENT;
    memcpy(out, text, strlen(text) < room ? strlen(text) : room);
    return (int64_t)strlen(text);
}

static char out_bytes[65536], line_bytes[256], html[65536], wanted[65536];
static size_t html_length;

static int call(const char *command, const char *input, size_t input_length, wtround_room *out)
{
    wtround_text words[] = { { command, strlen(command) }, { "Main", 4 } };
    wtround_room line = { line_bytes, sizeof line_bytes, 0 };
    *out = (wtround_room){ out_bytes, sizeof out_bytes, 0 };
    memset(out_bytes, '#', sizeof out_bytes);
    made = 0;
    held = 0;
    return wtround_run(words, strcmp(command, "wikitext") ? 2 : 1, input, input_length, give, NULL, out,
                       &line);
}

/* Tries a command with each allocation failing, from `failing` up to as many as `more` behind it. */
static long try_command(const char *command, const char *input, size_t input_length, long more)
{
    wtround_room out;
    long tries = 0, answered = 0;
    size_t length;
    failing = failing_to = 0;
    if (call(command, input, input_length, &out) != WTROUND_DONE || held != 0)
        return -1;
    length = out.length;
    memcpy(wanted, out_bytes, length);
    for (long at = 1;; at++) {
        int status;
        failing = at;
        failing_to = at + more;
        status = call(command, input, input_length, &out);
        if (held != 0)
            return -1;
        if (made < at)
            break;
        tries++;
        if (status == WTROUND_DONE) {
            answered++;
            if (out.length != length || memcmp(out_bytes, wanted, length) != 0)
                return -1;
        } else if ((status != WTROUND_NO_MEMORY && status != WTROUND_WRITE_FAULT) || out_bytes[0] != '#') {
            printf("%s: allocation %ld: status %d\n", command, at, status);
            return -1;
        }
    }
    failing = failing_to = 0;
    printf("%s: %ld allocations failed in turn, of which %ld changed nothing\n", command, tries, answered);
    return tries;
}

int main(void)
{
    wtround_room out;
    long good = 1;
    failing = failing_to = 0;
    if (call("html", NULL, 0, &out) != WTROUND_DONE)
        return 2;
    html_length = out.length;
    memcpy(html, out_bytes, html_length);
    for (long more = 0; more < 1000000; more += 999999) {
        good = good && try_command("html", NULL, 0, more) > 0 && try_command("expand", NULL, 0, more) > 0
               && try_command("wikitext", html, html_length, more) > 0
               && try_command("edit", html, html_length, more) > 0;
    }
    printf("failing allocations: %s\n", good ? "passed" : "failed");
    return !good;
}
