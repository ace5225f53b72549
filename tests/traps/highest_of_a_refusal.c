/*
 * The highest sequence taken without a look at the answer: a refused call has written none.
 * expect: ignoring return value
 * in: C C++
 */
#include "station.h"

uint32_t highest_under(const struct station_tables *tables, uint32_t slot)
{
    uint32_t highest;
#ifdef SLIP
    station_tables_under(tables, slot, &highest);
    return highest;
#else
    return station_refusal(station_tables_under(tables, slot, &highest)) == STATION_DONE ? highest : STATION_NONE_REF;
#endif
}
