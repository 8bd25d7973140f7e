/*
 * Buffers that end where a page begins that cannot be touched: a load or a
 * store past the end stops the program.
 */
#ifndef GUARD_H
#define GUARD_H

#include <stddef.h>

/* The end of so many bytes. They are never given back. */
void *guarded(size_t bytes);

/* Of a buffer of so many bytes, makes all that only to be read. */
void guard_from_writing(void *end, size_t bytes);

#endif
