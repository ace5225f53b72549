/*
 * An answer taken for yes or no, where 0 is done and a refusal is not.
 * expect: scalar (type )?is required|expression of scalar type|could not convert|not contextually convertible
 * in: C C++
 */
#include "station.h"

const char *confirm(struct station_tables *tables, uint32_t slot)
{
#ifdef SLIP
    if (station_tables_promote(tables, slot))
#else
    if (station_refusal(station_tables_promote(tables, slot)) == STATION_DONE)
#endif
        return "confirmed";
    return "refused";
}
