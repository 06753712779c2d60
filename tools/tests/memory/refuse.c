/* Refuses memory in turn. Loaded before a program (LD_PRELOAD), it counts the calls by which the program asks for memory,
 * and refuses the one with the number REFUSE_AT, with REFUSE_ALL set all later ones too. With COUNT_TO set to a file's
 * name it writes there how many calls there were. */
#define _GNU_SOURCE
#include <dlfcn.h>
#include <errno.h>
#include <stdio.h>
#include <stdlib.h>

static unsigned long calls, refused_at;
static int refuses_all;

__attribute__((constructor)) static void read_words(void)
{
    const char *at = getenv("REFUSE_AT");
    refused_at = at ? strtoul(at, NULL, 10) : 0;
    refuses_all = getenv("REFUSE_ALL") != NULL;
    calls = 0;
}

__attribute__((destructor)) static void write_count(void)
{
    const char *name = getenv("COUNT_TO");
    unsigned long count = calls;
    FILE *file = name ? fopen(name, "w") : NULL;
    if (file) {
        fprintf(file, "%lu\n", count);
        fclose(file);
    }
}

/* Whether this call is refused. */
static int is_refused(void)
{
    calls++;
    return refused_at && (refuses_all ? calls >= refused_at : calls == refused_at);
}

void *malloc(size_t size)
{
    static void *(*real)(size_t);
    if (!real)
        real = (void *(*)(size_t))dlsym(RTLD_NEXT, "malloc");
    if (is_refused()) {
        errno = ENOMEM;
        return NULL;
    }
    return real(size);
}

void *realloc(void *old, size_t size)
{
    static void *(*real)(void *, size_t);
    if (!real)
        real = (void *(*)(void *, size_t))dlsym(RTLD_NEXT, "realloc");
    if (is_refused()) {
        errno = ENOMEM;
        return NULL;
    }
    return real(old, size);
}

int posix_memalign(void **found, size_t alignment, size_t size)
{
    static int (*real)(void **, size_t, size_t);
    if (!real)
        real = (int (*)(void **, size_t, size_t))dlsym(RTLD_NEXT, "posix_memalign");
    return is_refused() ? ENOMEM : real(found, alignment, size);
}

void *aligned_alloc(size_t alignment, size_t size)
{
    static void *(*real)(size_t, size_t);
    if (!real)
        real = (void *(*)(size_t, size_t))dlsym(RTLD_NEXT, "aligned_alloc");
    if (is_refused()) {
        errno = ENOMEM;
        return NULL;
    }
    return real(alignment, size);
}
