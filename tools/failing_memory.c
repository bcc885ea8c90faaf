/* Loaded before a program, lets the allocation of the number ALLOCATION_FAILS fail, from 1, and with ALLOCATIONS_FAIL_ONWARD all after
   it too. At the end it writes to the file ALLOCATIONS_TOLD how many there were. The programs take all their memory by these two calls. */
#define _GNU_SOURCE
#include <dlfcn.h>
#include <stdio.h>
#include <stdlib.h>

static long count;

static int fails(void)
{
    const char *number = getenv("ALLOCATION_FAILS");
    long at = number ? atol(number) : 0;
    count++;
    return at > 0 && (getenv("ALLOCATIONS_FAIL_ONWARD") ? count >= at : count == at);
}

void *malloc(size_t size)
{
    static void *(*next)(size_t);
    if (!next)
        next = (void *(*)(size_t))dlsym(RTLD_NEXT, "malloc");
    return fails() ? NULL : next(size);
}

void *realloc(void *memory, size_t size)
{
    static void *(*next)(void *, size_t);
    if (!next)
        next = (void *(*)(void *, size_t))dlsym(RTLD_NEXT, "realloc");
    return fails() ? NULL : next(memory, size);
}

__attribute__((destructor)) static void tell(void)
{
    const char *name = getenv("ALLOCATIONS_TOLD");
    long counted = count;
    FILE *file = name ? fopen(name, "w") : NULL;
    if (!file)
        return;
    fprintf(file, "%ld\n", counted);
    fclose(file);
}
