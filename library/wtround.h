/* The commands of wtround as calls of a C library.
 *
 * A command is a list of words, as on the command line: {"html", "Opava"}, {"edit", "Opava"},
 * {"wikitext"}. It may read an input (the HTML of `wikitext`, `edit` and `selser`), and it takes pages from
 * the caller: through a callback (`wtround_run`), or from a table (`wtround_answer`).
 *
 * Nothing is kept between calls, and there is no global state: any number of threads may call at once.
 * A call needs less than 1 MiB of stack. It takes memory by malloc and realloc, and frees all of it.
 * No call may be made from a signal handler.
 */
#ifndef WTROUND_H
#define WTROUND_H

#include <stddef.h>
#include <stdint.h>

#ifdef __cplusplus
extern "C" {
#endif

/* How a call ends. From 0 to 8 these are the exit statuses of the program wtround. From 1 to 8 `line` says
 * why; with 7 and 8 it may be empty. With 7 `out` may hold the beginning of an answer; don't use it. */
enum wtround_status {
    WTROUND_DONE = 0,         /* the answer is in `out` */
    WTROUND_USAGE = 1,        /* the words are no command */
    WTROUND_PAGE_REFUSED = 2, /* the page is refused */
    WTROUND_HTML_REFUSED = 3, /* the HTML is refused */
    WTROUND_EDIT_REFUSED = 4, /* the edit is refused */
    WTROUND_READ_FAULT = 5,   /* the input failed; no call of this library ends with it */
    WTROUND_FOLDER_FAULT = 6, /* a page could not be fetched */
    WTROUND_WRITE_FAULT = 7,  /* there was no memory to keep the answer or the line */
    WTROUND_NO_MEMORY = 8,    /* there was no memory */
    WTROUND_SHORT = 100,   /* a room is too small: nothing was written, the lengths say how much is needed */
    WTROUND_MISSING = 101, /* the table lacks pages that are needed: `missing` names them */
    WTROUND_BAD_CALL = 102 /* a pointer is null, a length is above PTRDIFF_MAX, or a room overlaps another
                              text or room; nothing was written */
};

/* The most bytes that a page may have, and the most that HTML may have. */
#define WTROUND_PAGE_BYTES 2097152
#define WTROUND_HTML_BYTES 67108864

/* Bytes of the caller, without a zero byte at the end. `bytes` is never null: for no bytes it may be "". */
typedef struct wtround_text {
    const char *bytes;
    size_t length;
} wtround_text;

/* A buffer of the caller for a text; `bytes` may be null if `room` is 0. A call sets `length` to the length
 * of the text, and writes the text to `bytes` if `room` is at least that. A line ends with a line break. If
 * the call ends with WTROUND_BAD_CALL, nothing is set. */
typedef struct wtround_room {
    char *bytes;
    size_t room;
    size_t length;
} wtround_room;

/* What `wtround_fetch` returns if it has no page. */
enum wtround_fetched {
    WTROUND_ABSENT = -1,         /* no page has the name */
    WTROUND_FETCH_FAILED = -2,   /* it could not be fetched: the command ends with WTROUND_FOLDER_FAULT */
    WTROUND_FETCH_NO_MEMORY = -3 /* the command ends with WTROUND_NO_MEMORY */
};

/* Gives the page of a full name ("Main", "Template:Lang"; UTF-8 with spaces): writes its first bytes, at most
 * `room`, to `out`, and returns how many bytes the page has, or one of the numbers above. Any other negative
 * number counts as WTROUND_FETCH_FAILED. If a page has more bytes than `room`, this is called once more with
 * more room, but never with more than WTROUND_PAGE_BYTES + 1, which is enough to refuse the page. A command
 * asks for a name once. The function may not leave the call by longjmp or an exception. */
typedef int64_t wtround_fetch(void *context, const char *name, size_t name_length, char *out, size_t room);

/* Runs the command `words`. Pages are fetched in rounds, one for each level of templates within others, and
 * each round takes about as long as `expand` of the page as far as it is known. Only `wikitext`, `edit` and
 * `selser` read the input, which may be null if it has no bytes; `context` is passed to each call of `fetch`.
 * The result is a wtround_status, never WTROUND_MISSING.
 *
 * The names that are asked for are those that `expand` of the page takes, even if the answer needs the page
 * alone, as when the HTML of `edit` is refused. `selser` also asks for those of the new pages that it tries.
 * If the target of a call, or the part that a function such as #if chooses, depends on a template's output, a
 * page may be asked for that isn't needed in the end. */
int wtround_run(const wtround_text *words, size_t word_count, const char *input, size_t input_length,
                wtround_fetch *fetch, void *context, wtround_room *out, wtround_room *line);

/* What a table says about a name. */
enum wtround_state {
    WTROUND_PAGE_ABSENT = 0, /* no page has the name */
    WTROUND_PAGE_FOUND = 1,  /* the page is `text` */
    WTROUND_PAGE_FAILED = 2  /* it could not be fetched */
};

typedef struct wtround_page {
    wtround_text name;
    wtround_text text;
    uint8_t state;
} wtround_page;

/* The same with a table of pages in place of a callback: for callers that fetch many pages at once, or that
 * can't be called back. If two entries have the same name, the first counts. If the command asked for names
 * that the table lacks, the call ends with WTROUND_MISSING, and `missing` has them in the order in which they
 * were asked for, each followed by a zero byte. Add an entry for each (also for those that are absent), and
 * call again. Templates within others take a round for each level. */
int wtround_answer(const wtround_text *words, size_t word_count, const char *input, size_t input_length,
                   const wtround_page *pages, size_t page_count, wtround_room *out, wtround_room *line,
                   wtround_room *missing);

/* The version of the library, for example "0.2.0". */
const char *wtround_version(void);

#ifdef __cplusplus
}
#endif

#endif
