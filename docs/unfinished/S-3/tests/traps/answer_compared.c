/*
 * An answer compared with a number, which a refused call has not.
 * expect: invalid operands to binary|no match for .operator==
 * in: C C++
 */
#include "station.h"

bool is_full(const struct station_tables *tables)
{
#ifdef SLIP
    return station_tables_occupied_total(tables) == tables->blocks;
#else
    return station_value(station_tables_occupied_total(tables)) == tables->blocks;
#endif
}
