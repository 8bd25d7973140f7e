/*
 * Buffers before a page that cannot be touched, from the system's own calls.
 */
#define _DEFAULT_SOURCE
#include "guard.h"

#include <stdint.h>
#include <stdio.h>
#include <stdlib.h>
#include <sys/mman.h>
#include <unistd.h>

static size_t page_bytes(void)
{
    return (size_t)sysconf(_SC_PAGESIZE);
}

static size_t whole_pages(size_t bytes)
{
    return (bytes + page_bytes() - 1) / page_bytes() * page_bytes();
}

void *guarded(size_t bytes)
{
    size_t page = page_bytes();
    size_t whole = whole_pages(bytes);
    uint8_t *at = mmap(NULL, whole + page, PROT_READ | PROT_WRITE,
                       MAP_PRIVATE | MAP_ANONYMOUS, -1, 0);

    if (at == MAP_FAILED || mprotect(at + whole, page, PROT_NONE) != 0) {
        perror("no memory");
        exit(2);
    }
    return at + whole;
}

void guard_from_writing(void *end, size_t bytes)
{
    size_t whole = whole_pages(bytes);

    (void)mprotect((uint8_t *)end - whole, whole, PROT_READ);
}
