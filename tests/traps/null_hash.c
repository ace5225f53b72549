/*
 * No hash at all, where a block has no parent to name.
 * expect: null where non-null expected|null passed to a callee that requires a non-null argument
 * in: C
 */
#include "station.h"

static const uint8_t own[STATION_HASH_BYTES];

struct station_answer admit(struct station_tables *tables)
{
#ifdef SLIP
    return station_tables_admit(tables, 0, own, NULL, 1);
#else
    static const uint8_t previous[STATION_HASH_BYTES];
    return station_tables_admit(tables, 0, own, previous, 1);
#endif
}
