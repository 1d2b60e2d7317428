/*
 * Stands in front of the C library's allocator, and refuses requests for memory. They are counted from 1; a request
 * is a call that may take memory: malloc, calloc, realloc and the aligned ones, but not one that asks for no byte.
 *
 *   REFUSE_PROGRAM  the path of the program; in any other process nothing is counted and nothing refused
 *   REFUSE_FIRST    the number of the first request that is refused; without it, none is
 *   REFUSE_LAST     the number of the last one; without it, all that follow are refused
 *   REFUSE_REPORT   the number of an open file, to which the count of requests, and that of refused ones, is written at the end
 */
#define _GNU_SOURCE
#include <errno.h>
#include <limits.h>
#include <stdio.h>
#include <stdlib.h>
#include <string.h>
#include <unistd.h>

extern void *__libc_malloc(size_t size);
extern void *__libc_calloc(size_t count, size_t size);
extern void *__libc_realloc(void *old, size_t size);
extern void *__libc_memalign(size_t alignment, size_t size);

static enum { UNREAD, ASLEEP, AWAKE } state = UNREAD;
static unsigned long first = ULONG_MAX, last = ULONG_MAX, requests = 0, refused = 0;

static unsigned long number(const char *name)
{
    const char *text = getenv(name);
    return text ? strtoul(text, NULL, 10) : ULONG_MAX;
}

static void read_settings(void)
{
    const char *program = getenv("REFUSE_PROGRAM");
    char path[PATH_MAX];
    ssize_t length = readlink("/proc/self/exe", path, sizeof path - 1);
    state = ASLEEP;
    if (!program || length < 0)
        return;
    path[length] = '\0';
    if (strcmp(path, program) != 0)
        return;
    first = number("REFUSE_FIRST");
    last = number("REFUSE_LAST");
    state = AWAKE;
}

/* What a test plants where a request is refused, so that valgrind has something to find. */
static void plant(void)
{
#ifdef PLANT_LEAK
    *(volatile char *)__libc_malloc(16) = 1;
#endif
#ifdef PLANT_BAD_READ
    volatile char *gone = __libc_malloc(16);
    free((void *)gone);
    errno = *gone;
#endif
}

static int is_refused(size_t size)
{
    if (state == UNREAD)
        read_settings();
    if (state == ASLEEP || size == 0)
        return 0;
    requests++;
    if (requests < first || requests > last)
        return 0;
    refused++;
    plant();
    errno = ENOMEM;
    return 1;
}

void *malloc(size_t size)
{
    return is_refused(size) ? NULL : __libc_malloc(size);
}

void *calloc(size_t count, size_t size)
{
    return is_refused(count && size) ? NULL : __libc_calloc(count, size);
}

void *realloc(void *old, size_t size)
{
    return is_refused(size) ? NULL : __libc_realloc(old, size);
}

void *memalign(size_t alignment, size_t size)
{
    return is_refused(size) ? NULL : __libc_memalign(alignment, size);
}

void *aligned_alloc(size_t alignment, size_t size)
{
    return memalign(alignment, size);
}

int posix_memalign(void **made, size_t alignment, size_t size)
{
    void *got = memalign(alignment, size);
    if (!got && size)
        return ENOMEM;
    *made = got;
    return 0;
}

__attribute__((destructor)) static void report(void)
{
    const char *file = getenv("REFUSE_REPORT");
    char text[64];
    int length;
    if (state != AWAKE || !file)
        return;
    length = snprintf(text, sizeof text, "%lu %lu\n", requests, refused);
    if (write(atoi(file), text, (size_t)length) != length)
        _exit(99);
}
