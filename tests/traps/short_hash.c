/*
 * A hash of as many bytes as its refusal's number.
 * expect: reading 32 bytes from a region of size 2|array argument is too small; contains 2 elements
 * in: C
 */
#include "station.h"

#ifdef SLIP
static const uint8_t own[STATION_REFUSED_HASH_LENGTH];
#else
static const uint8_t own[STATION_HASH_BYTES];
#endif
static const uint8_t previous[STATION_HASH_BYTES];

struct station_answer admit(struct station_tables *tables)
{
    return station_tables_admit(tables, 5, own, previous, 1);
}
