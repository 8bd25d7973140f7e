/*
 * The tables of calls of the library and the model, and the list of engines.
 * BUILDS has the addresses of those builds of swift.c that are linked.
 */
#include <string.h>

#include "engines.h"
#include "otto.h"
#include "reference.h"
#include "swift.h"

#define CALLS(prefix)                                                        \
    {                                                                        \
        #prefix, prefix##_reset, prefix##_write, prefix##_read,              \
            prefix##_set_pot, prefix##_frame, prefix##_waiting,              \
            prefix##_import, prefix##_compress, prefix##_expand              \
    }

const struct engine engine_otto = CALLS(otto);
const struct engine engine_reference = CALLS(reference);

const struct engine *engine_named(const char *name)
{
    const struct engine *all[] = { &engine_otto, &engine_reference, BUILDS };

    for (size_t i = 0; i < sizeof all / sizeof all[0]; i++) {
        if (strcmp(all[i]->name, name) == 0) {
            return all[i];
        }
    }
    return NULL;
}
