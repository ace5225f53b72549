/*
 * A compiler for another machine than the archive's.
 * expect: libstation.a is for x86-64
 * in: C C++
 */
#ifdef SLIP
#undef __x86_64__
#endif
#include "station.h"

const char *version(void);

const char *version(void)
{
    return STATION_VERSION;
}
