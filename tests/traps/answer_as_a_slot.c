/*
 * An answer cut to its lower half, where a refusal has a 0.
 * expect: incompatible (types|result type)|cannot convert .station_answer|no viable conversion from
 * in: C C++
 */
#include "station.h"

uint32_t freed(struct station_tables *tables, uint32_t slot)
{
#ifdef SLIP
    return station_tables_remove(tables, slot);
#else
    return station_value(station_tables_remove(tables, slot));
#endif
}
