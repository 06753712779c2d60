#include "case.h"

#include <stdio.h>
#include <stdlib.h>
#include <string.h>

#define FIRST_ROOM 65536
#define FIRST_LINE 256

/* What the tests allocate isn't what they try to make fail. */
static void *own(void *at)
{
    if (!at) {
        fprintf(stderr, "the test itself has no memory\n");
        exit(2);
    }
    return at;
}

static int digit(char c)
{
    return c <= '9' ? c - '0' : c - 'a' + 10;
}

/* The bytes of a field: digits, or DIGITS*COUNT for so many times the same. */
static struct bytes read_bytes(const char *field, size_t field_length)
{
    const char *star = memchr(field, '*', field_length);
    size_t digits = star ? (size_t)(star - field) : field_length;
    size_t count = star ? strtoul(star + 1, NULL, 10) : 1;
    size_t one = digits / 2;
    struct bytes it = { own(malloc(one * count + 1)), one * count };
    for (size_t i = 0; i < it.length; i++)
        it.at[i] = (char)(16 * digit(field[2 * (i % one)]) + digit(field[2 * (i % one) + 1]));
    return it;
}

static size_t parts_of(const char *field)
{
    size_t count = *field ? 1 : 0;
    for (; *field; field++)
        count += *field == ',';
    return count;
}

static void read_words(struct test_case *into, const char *field)
{
    into->word_count = parts_of(field);
    into->words = own(calloc(into->word_count + 1, sizeof *into->words));
    for (size_t i = 0; i < into->word_count; i++) {
        size_t length = strcspn(field, ",");
        struct bytes word = read_bytes(field, length);
        into->words[i] = (wtround_text){ word.at, word.length };
        field += length + 1;
    }
}

static void read_pages(struct test_case *into, const char *field)
{
    into->page_count = parts_of(field);
    into->pages = own(calloc(into->page_count + 1, sizeof *into->pages));
    for (size_t i = 0; i < into->page_count; i++) {
        size_t length = strcspn(field, ","), name_length = strcspn(field, "=");
        struct bytes name = read_bytes(field, name_length);
        struct bytes text = read_bytes(field + name_length + 1, length - name_length - 1);
        into->pages[i] =
            (wtround_page){ { name.at, name.length }, { text.at, text.length }, WTROUND_PAGE_FOUND };
        field += length + 1;
    }
}

/* Cuts a line at tabs, and gives how many fields it has. */
static size_t fields_of(char *line, char **fields, size_t most)
{
    size_t count = 0;
    line[strcspn(line, "\n")] = 0;
    while (line && count < most) {
        char *tab = strchr(line, '\t');
        fields[count++] = line;
        if (tab)
            *tab = 0;
        line = tab ? tab + 1 : NULL;
    }
    return count;
}

enum read_case read_case(struct test_case *into, char *asked, char *wanted)
{
    char *of_case[4], *of_answer[3];
    size_t count = fields_of(asked, of_case, 4);
    if (fields_of(wanted, of_answer, 3) < 3)
        return CASE_MALFORMED;
    if (count == 4 && *of_case[3])
        return CASE_OF_DEVICES;
    read_words(into, of_case[0]);
    into->input = read_bytes(of_case[1], strlen(of_case[1]));
    read_pages(into, count > 2 ? of_case[2] : "");
    into->status = atoi(of_answer[0]);
    into->out = read_bytes(of_answer[1], strlen(of_answer[1]));
    into->line = read_bytes(of_answer[2], strlen(of_answer[2]));
    return CASE_READ;
}

void free_case(struct test_case *it)
{
    for (size_t i = 0; i < it->word_count; i++)
        free((char *)it->words[i].bytes);
    for (size_t i = 0; i < it->page_count; i++) {
        free((char *)it->pages[i].name.bytes);
        free((char *)it->pages[i].text.bytes);
    }
    free(it->words);
    free(it->pages);
    free(it->input.at);
    free(it->out.at);
    free(it->line.at);
}

size_t text_length(const struct test_case *it)
{
    size_t length = it->input.length;
    for (size_t i = 0; i < it->page_count; i++)
        length += it->pages[i].text.length;
    return length;
}

static void enlarge(wtround_room *room)
{
    if (room->length > room->room) {
        free(room->bytes);
        room->bytes = own(malloc(room->length));
        room->room = room->length;
    }
}

static int64_t give_page(void *context, const char *name, size_t name_length, char *out, size_t room)
{
    const struct test_case *it = context;
    for (size_t i = 0; i < it->page_count; i++) {
        wtround_text found = it->pages[i].name, text = it->pages[i].text;
        if (found.length == name_length && memcmp(found.bytes, name, name_length) == 0) {
            memcpy(out, text.bytes, text.length < room ? text.length : room);
            return (int64_t)text.length;
        }
    }
    return WTROUND_ABSENT;
}

/* Rooms in which most answers fit at the first call. */
static struct reply first_reply(void)
{
    struct reply reply = { 0 };
    reply.out = (wtround_room){ own(malloc(FIRST_ROOM)), FIRST_ROOM, 0 };
    reply.line = (wtround_room){ own(malloc(FIRST_LINE)), FIRST_LINE, 0 };
    return reply;
}

struct reply call_by_callback(const struct test_case *it)
{
    struct reply reply = first_reply();
    do {
        enlarge(&reply.out);
        enlarge(&reply.line);
        reply.status = wtround_run(it->words, it->word_count, it->input.at, it->input.length, give_page,
                                   (void *)it, &reply.out, &reply.line);
    } while (reply.status == WTROUND_SHORT);
    return reply;
}

/* A table of the case's pages, and of what isn't among them and was asked for. */
struct full_table {
    wtround_page *pages;
    size_t count;
};

static void add_absent(struct full_table *table, const wtround_room *missing)
{
    for (const char *name = missing->bytes; name < missing->bytes + missing->length;
         name += strlen(name) + 1) {
        table->pages = own(realloc(table->pages, (table->count + 1) * sizeof *table->pages));
        table->pages[table->count++] =
            (wtround_page){ { own(strdup(name)), strlen(name) }, { "", 0 }, WTROUND_PAGE_ABSENT };
    }
}

struct reply call_by_table(const struct test_case *it)
{
    struct reply reply = first_reply();
    wtround_room missing = { 0 };
    struct full_table table = { own(malloc((it->page_count + 1) * sizeof *it->pages)), it->page_count };
    memcpy(table.pages, it->pages, it->page_count * sizeof *it->pages);
    do {
        enlarge(&reply.out);
        enlarge(&reply.line);
        enlarge(&missing);
        reply.status = wtround_answer(it->words, it->word_count, it->input.at, it->input.length, table.pages,
                                      table.count, &reply.out, &reply.line, &missing);
        if (reply.status == WTROUND_MISSING)
            add_absent(&table, &missing);
    } while (reply.status == WTROUND_SHORT || reply.status == WTROUND_MISSING);
    for (size_t i = it->page_count; i < table.count; i++)
        free((char *)table.pages[i].name.bytes);
    free(table.pages);
    free(missing.bytes);
    return reply;
}

void free_reply(struct reply *it)
{
    free(it->out.bytes);
    free(it->line.bytes);
}

static bool is_text(const struct bytes *wanted, const wtround_room *room)
{
    return room->length == wanted->length
           && (wanted->length == 0 || memcmp(room->bytes, wanted->at, wanted->length) == 0);
}

bool is_wanted(const struct test_case *it, const struct reply *reply)
{
    return reply->status == it->status && is_text(&it->out, &reply->out) && is_text(&it->line, &reply->line);
}
