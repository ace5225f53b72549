/*
 * A call whose refusal nobody sees.
 * expect: ignoring return value
 * in: C C++
 */
#include "station.h"

bool confirm(struct station_tables *tables, uint32_t slot)
{
#ifdef SLIP
    station_tables_promote(tables, slot);
    return true;
#else
    return station_refusal(station_tables_promote(tables, slot)) == STATION_DONE;
#endif
}
