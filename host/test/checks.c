/*
 * Counting of checks.
 */
#include "checks.h"

#include <inttypes.h>
#include <stdio.h>

unsigned long checks;
unsigned long failed;

void check(const char *name, int64_t got, int64_t want)
{
    checks += 1;
    if (got != want) {
        failed += 1;
        printf("failed: %s: got %" PRId64 ", want %" PRId64 "\n", name, got,
               want);
    }
}

void check_at(const char *name, uint32_t a, uint32_t b, int64_t got,
              int64_t want)
{
    char text[160];

    (void)snprintf(text, sizeof text, "%s [%" PRIu32 ", %" PRIu32 "]", name,
                   a, b);
    check(text, got, want);
}
