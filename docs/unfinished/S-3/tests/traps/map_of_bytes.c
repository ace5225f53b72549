/*
 * A map lent as bytes, and as many of them as it has words.
 * expect: incompatible pointer type|cannot convert .uint8_t|assigning to .uint64_t|incompatible type
 * in: C C++
 */
#include "station.h"

#ifdef SLIP
static uint8_t map[STATION_MAP_WORDS(1024)];
#else
static uint64_t map[STATION_MAP_WORDS(1024)];
#endif

void lend_map(struct station_tables *tables)
{
    tables->map = map;
}
