/*
 * The nine operations again, in C written for speed: the measure that the
 * library's instructions are held to. swift.c is built in several ways, and
 * the least of their counts is the measure. Each build is an engine.
 */
#ifndef SWIFT_H
#define SWIFT_H

#include "engines.h"

extern const struct engine engine_gcc_O2;
extern const struct engine engine_gcc_O3;
extern const struct engine engine_clang_O2;
extern const struct engine engine_clang_O3;

#endif
