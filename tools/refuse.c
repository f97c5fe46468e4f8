/* Preloaded into a program, refuses its request for memory of the number REFUSE. With COUNT it says on standard error, at the
   end, how many requests there were. Built and used by tools/refused_memory. */
#include <errno.h>
#include <stddef.h>
#include <stdio.h>
#include <stdlib.h>

extern void *__libc_malloc(size_t size);
extern void *__libc_realloc(void *old, size_t size);

static unsigned long requests, refused;

__attribute__((constructor)) static void begin(void)
{
    const char *number = getenv("REFUSE");
    refused = number ? strtoul(number, NULL, 10) : 0;
    requests = 0;
}

__attribute__((destructor)) static void end(void)
{
    unsigned long all = requests;
    if (getenv("COUNT"))
        fprintf(stderr, "%lu\n", all);
}

static int is_refused(void)
{
    requests += 1;
    if (requests != refused)
        return 0;
    errno = ENOMEM;
    return 1;
}

void *malloc(size_t size)
{
    return is_refused() ? NULL : __libc_malloc(size);
}

void *realloc(void *old, size_t size)
{
    return is_refused() ? NULL : __libc_realloc(old, size);
}
