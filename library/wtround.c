/* The edge of the library: what C callers may get wrong is refused here, and a callback is turned into
 * rounds of the proved call over a table. */
#include "wtround.h"

#include <stdbool.h>
#include <stdlib.h>
#include <string.h>

#ifndef WTROUND_VERSION
#define WTROUND_VERSION "unversioned"
#endif

#define EXPORTED __attribute__((visibility("default")))

/* The proved call (crates/wtround_c). No pointer may be null, also where nothing is at it, and what it
 * writes may overlap nothing. */
uint8_t wtround_proved_answer(const wtround_text *words, size_t word_count, const char *input,
                              size_t input_length, const wtround_page *pages, size_t page_count, char *out,
                              size_t out_room, size_t *out_length, char *line, size_t line_room,
                              size_t *line_length, char *missing, size_t missing_room,
                              size_t *missing_length);

/* What null pointers to nothing are replaced by; nothing reads or writes it. */
static const wtround_page nothing;

static void *some(const void *at)
{
    return (void *)(at ? at : &nothing);
}

/* ---- what is refused */

static bool is_range(const void *at, size_t count, size_t size)
{
    return count <= (size_t)PTRDIFF_MAX / size && (at || count == 0);
}

static bool is_text(wtround_text text)
{
    return text.bytes && text.length <= (size_t)PTRDIFF_MAX;
}

static bool is_room(const wtround_room *room)
{
    return room && is_range(room->bytes, room->room, 1);
}

static bool overlap(const void *a, size_t a_length, const void *b, size_t b_length)
{
    uintptr_t first = (uintptr_t)a, second = (uintptr_t)b;
    return a_length && b_length && first < second + b_length && second < first + a_length;
}

static bool lies_apart(const wtround_room *room, const char *bytes, size_t length)
{
    return !overlap(room->bytes, room->room, bytes, length) && !overlap(room, sizeof *room, bytes, length);
}

/* Whether bytes that are read lie apart from all that is written. */
static bool is_apart(const char *bytes, size_t length, wtround_room *const *rooms, size_t room_count)
{
    for (size_t i = 0; i < room_count; i++)
        if (!lies_apart(rooms[i], bytes, length))
            return false;
    return true;
}

static bool are_words(const wtround_text *words, size_t count, wtround_room *const *rooms, size_t room_count)
{
    if (!is_range(words, count, sizeof *words)
        || !is_apart((const char *)words, count * sizeof *words, rooms, room_count))
        return false;
    for (size_t i = 0; i < count; i++)
        if (!is_text(words[i]) || !is_apart(words[i].bytes, words[i].length, rooms, room_count))
            return false;
    return true;
}

static bool are_pages(const wtround_page *pages, size_t count, wtround_room *const *rooms, size_t room_count)
{
    if (!is_range(pages, count, sizeof *pages)
        || !is_apart((const char *)pages, count * sizeof *pages, rooms, room_count))
        return false;
    for (size_t i = 0; i < count; i++) {
        const wtround_page *page = &pages[i];
        if (!is_text(page->name) || !is_text(page->text)
            || !is_apart(page->name.bytes, page->name.length, rooms, room_count)
            || !is_apart(page->text.bytes, page->text.length, rooms, room_count))
            return false;
    }
    return true;
}

/* Whether the rooms are good, and apart from each other. */
static bool are_rooms(wtround_room *const *rooms, size_t count)
{
    for (size_t i = 0; i < count; i++) {
        if (!is_room(rooms[i]) || overlap(rooms[i], sizeof **rooms, rooms[i]->bytes, rooms[i]->room))
            return false;
        for (size_t k = 0; k < i; k++)
            if (!lies_apart(rooms[i], rooms[k]->bytes, rooms[k]->room)
                || !lies_apart(rooms[k], rooms[i]->bytes, rooms[i]->room)
                || overlap(rooms[i], sizeof **rooms, rooms[k], sizeof **rooms))
                return false;
    }
    return true;
}

static bool is_call(const wtround_text *words, size_t word_count, const char *input, size_t input_length,
                    wtround_room *const *rooms, size_t room_count)
{
    return are_rooms(rooms, room_count) && are_words(words, word_count, rooms, room_count)
           && is_range(input, input_length, 1) && is_apart(input, input_length, rooms, room_count);
}

/* ---- the call over a table */

static int proved_answer(const wtround_text *words, size_t word_count, const char *input, size_t input_length,
                         const wtround_page *pages, size_t page_count, wtround_room *out, wtround_room *line,
                         wtround_room *missing)
{
    return wtround_proved_answer(some(words), word_count, some(input), input_length, some(pages), page_count,
                                 some(out->bytes), out->room, &out->length, some(line->bytes), line->room,
                                 &line->length, some(missing->bytes), missing->room, &missing->length);
}

EXPORTED int wtround_answer(const wtround_text *words, size_t word_count, const char *input,
                            size_t input_length, const wtround_page *pages, size_t page_count,
                            wtround_room *out, wtround_room *line, wtround_room *missing)
{
    wtround_room *rooms[] = { out, line, missing };
    if (!is_call(words, word_count, input, input_length, rooms, 3) || !are_pages(pages, page_count, rooms, 3))
        return WTROUND_BAD_CALL;
    return proved_answer(words, word_count, input, input_length, pages, page_count, out, line, missing);
}

/* ---- the call with a callback */

/* The pages that were fetched, and room for the names that are missing. */
struct table {
    wtround_page *pages;
    size_t count;
    size_t capacity;
    wtround_room missing;
};

static void free_table(struct table *table)
{
    for (size_t i = 0; i < table->count; i++) {
        free((char *)table->pages[i].name.bytes);
        free((char *)table->pages[i].text.bytes);
    }
    free(table->pages);
    free(table->missing.bytes);
}

static bool grow_missing(struct table *table)
{
    char *bytes = realloc(table->missing.bytes, table->missing.length);
    if (!bytes)
        return false;
    table->missing.bytes = bytes;
    table->missing.room = table->missing.length;
    return true;
}

/* Adds an entry, whose name and text the table owns from now on. */
static bool add_page(struct table *table, char *name, size_t name_length, char *text, size_t length,
                     int state)
{
    if (table->count == table->capacity) {
        size_t capacity = table->capacity ? 2 * table->capacity : 16;
        wtround_page *pages = realloc(table->pages, capacity * sizeof *pages);
        if (!pages)
            return false;
        table->pages = pages;
        table->capacity = capacity;
    }
    table->pages[table->count++] = (wtround_page){ { name, name_length }, { text, length }, (uint8_t)state };
    return true;
}

#define FIRST_ROOM 16384
#define MOST_ROOM (WTROUND_PAGE_BYTES + 1)

/* Fetches a page, and again with more room where it has more bytes. Gives the text to free, or NULL where
 * there is no memory; `length` is then as the callback told. */
static char *fetch_text(wtround_fetch *fetch, void *context, const char *name, size_t name_length,
                        int64_t *length)
{
    size_t room = FIRST_ROOM;
    for (;;) {
        char *text = malloc(room);
        if (!text) {
            *length = WTROUND_FETCH_NO_MEMORY;
            return NULL;
        }
        *length = fetch(context, name, name_length, text, room);
        if (*length <= (int64_t)room || room == MOST_ROOM)
            return text;
        free(text);
        room = *length < MOST_ROOM ? (size_t)*length : MOST_ROOM;
    }
}

/* Fetches the page of a name into the table. */
static bool fetch_page(struct table *table, wtround_fetch *fetch, void *context, const char *name)
{
    size_t name_length = strlen(name);
    int64_t length;
    char *own_name = malloc(name_length + 1);
    char *text = own_name ? fetch_text(fetch, context, name, name_length, &length) : NULL;
    bool added = false;
    if (text && length != WTROUND_FETCH_NO_MEMORY) {
        memcpy(own_name, name, name_length + 1);
        int state = length >= 0                ? WTROUND_PAGE_FOUND
                    : length == WTROUND_ABSENT ? WTROUND_PAGE_ABSENT
                                               : WTROUND_PAGE_FAILED;
        size_t taken = length < 0 ? 0 : length < MOST_ROOM ? (size_t)length : MOST_ROOM;
        added = add_page(table, own_name, name_length, text, taken, state);
    }
    if (!added) {
        free(own_name);
        free(text);
    }
    return added;
}

static bool fetch_missing(struct table *table, wtround_fetch *fetch, void *context)
{
    const char *end = table->missing.bytes + table->missing.length;
    for (const char *name = table->missing.bytes; name < end; name += strlen(name) + 1)
        if (!fetch_page(table, fetch, context, name))
            return false;
    return true;
}

/* Calls in rounds, and fetches what each is missing, until nothing is. */
static int answer_in_rounds(const wtround_text *words, size_t word_count, const char *input,
                            size_t input_length, wtround_fetch *fetch, void *context, struct table *table,
                            wtround_room *out, wtround_room *line)
{
    for (;;) {
        int status = proved_answer(words, word_count, input, input_length, table->pages, table->count, out,
                                   line, &table->missing);
        if (table->missing.length == 0)
            return status;
        if (status == WTROUND_SHORT ? !grow_missing(table) : !fetch_missing(table, fetch, context))
            return WTROUND_NO_MEMORY;
    }
}

static bool is_word(wtround_text word, const char *name)
{
    return word.length == strlen(name) && memcmp(word.bytes, name, word.length) == 0;
}

/* Fetches what a command of a page takes by the quickest command that asks for the same pages: `expand` makes
 * no tree. */
static int fetch_first(const wtround_text *words, size_t word_count, wtround_fetch *fetch, void *context,
                       struct table *table)
{
    static const char expand[] = "expand";
    if (word_count != 2
        || !(is_word(words[0], "html") || is_word(words[0], "ranges") || is_word(words[0], "lint")
             || is_word(words[0], "edit") || is_word(words[0], "selser")))
        return WTROUND_DONE;
    wtround_text quick[] = { { expand, sizeof expand - 1 }, words[1] };
    wtround_room out = { NULL, 0, 0 }, line = { NULL, 0, 0 };
    return answer_in_rounds(quick, 2, NULL, 0, fetch, context, table, &out, &line);
}

static int no_memory(wtround_room *out, wtround_room *line)
{
    static const char told[] = "wtround: no memory\n";
    out->length = 0;
    line->length = sizeof told - 1;
    if (line->room < line->length)
        return WTROUND_SHORT;
    memcpy(line->bytes, told, line->length);
    return WTROUND_NO_MEMORY;
}

EXPORTED int wtround_run(const wtround_text *words, size_t word_count, const char *input, size_t input_length,
                         wtround_fetch *fetch, void *context, wtround_room *out, wtround_room *line)
{
    wtround_room *rooms[] = { out, line };
    struct table table = { 0 };
    int status;
    if (!fetch || !is_call(words, word_count, input, input_length, rooms, 2))
        return WTROUND_BAD_CALL;
    status = fetch_first(words, word_count, fetch, context, &table);
    if (status != WTROUND_NO_MEMORY)
        status = answer_in_rounds(words, word_count, input, input_length, fetch, context, &table, out, line);
    free_table(&table);
    return status == WTROUND_NO_MEMORY ? no_memory(out, line) : status;
}

EXPORTED const char *wtround_version(void)
{
    return WTROUND_VERSION;
}
