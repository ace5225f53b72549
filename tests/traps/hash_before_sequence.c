/*
 * The hash before the sequence, as find_parent once had it.
 * expect: makes integer from pointer|incompatible pointer to integer|invalid conversion|no matching function
 * in: C C++
 */
#include "station.h"

uint32_t parent(const struct station_tables *tables, uint32_t sequence, const uint8_t previous[STATION_HASH_BYTES])
{
#ifdef SLIP
    return station_tables_find_parent(tables, previous, sequence);
#else
    return station_tables_find_parent(tables, sequence, previous);
#endif
}
