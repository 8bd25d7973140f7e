/*
 * Checks of figures, counted. What differs is printed.
 */
#ifndef CHECKS_H
#define CHECKS_H

#include <stdint.h>

extern unsigned long checks;
extern unsigned long failed;

void check(const char *name, int64_t got, int64_t want);

/* The name is printed with two numbers that say which of many it was. */
void check_at(const char *name, uint32_t a, uint32_t b, int64_t got,
              int64_t want);

#endif
