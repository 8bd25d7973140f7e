/*
 * Changes at random to a WAVE file that was good: the ways in which files go
 * bad, and some after which they are as good as before.
 */
#ifndef WAVE_CHANGES_H
#define WAVE_CHANGES_H

#include "waves.h"

enum wave_change {
    WAVE_CUT,           /* of the file only the front is left */
    WAVE_GROWN,         /* bytes follow that the RIFF length does not count */
    WAVE_LENGTH,        /* a chunk's length: 0, odd, or by little another */
    WAVE_HUGE,          /* a chunk's length near 2^32 or 2^31 */
    WAVE_DOUBLED,       /* a chunk stands twice */
    WAVE_DROPPED,       /* a chunk is gone */
    WAVE_MOVED,         /* a chunk stands elsewhere in the row */
    WAVE_SHORTENED,     /* a chunk has lost its last bytes, and says so */
    WAVE_RIFF_BELOW_4,  /* the RIFF length */
    WAVE_RIFF_ODD,
    WAVE_RIFF_ONE_MORE,
    WAVE_RIFF_ONE_LESS,
    WAVE_RIFF_SHORT,    /* of the file, at a chunk's end or within one */
    WAVE_RIFF_BEYOND,   /* the file */
    WAVE_BYTE,          /* any one byte */
    WAVE_CASE,          /* a letter of a name */
    WAVE_FORMAT,        /* a number of the format chunk */
    WAVE_LOOP,          /* a number of the first loop */
    WAVE_LOOP_COUNT,    /* how many loops a sampler chunk says it has */
    WAVE_FILLED,        /* the file is as long as it may be */
    WAVE_OVERFILLED,    /* and longer */
    WAVE_CHANGES        /* how many kinds there are */
};

const char *wave_change_name(enum wave_change change);

/* Changes the file; 0 where it has nothing of which the change could be. */
int wave_change(struct wave *wave, enum wave_change change);

#endif
