/*
 * Has valgrind look for leaks at the end of the input, while the program still holds all that it needs: it gives its
 * workbook back by its end, so a look at the exit would take the whole workbook for lost.
 */
#define _GNU_SOURCE
#include <sys/syscall.h>
#include <unistd.h>
#include <valgrind/memcheck.h>

ssize_t read(int file, void *to, size_t size)
{
    ssize_t got = syscall(SYS_read, file, to, size);
    if (file == 0 && got == 0)
        VALGRIND_DO_LEAK_CHECK;
    return got;
}
