/*
 * An answer taken for the number of records, which a refused call has not.
 * expect: incompatible type|cannot convert .station_answer|no viable conversion from
 * in: C C++
 */
#include "station.h"

uint32_t highest_tip(const struct station_tables *tables)
{
    struct station_head_row rows[STATION_MOST_HEADS];
#ifdef SLIP
    uint32_t shown = station_tables_screen(tables, rows, STATION_MOST_HEADS);
#else
    struct station_answer answer = station_tables_screen(tables, rows, STATION_MOST_HEADS);
    uint32_t shown = station_refusal(answer) == STATION_DONE ? station_value(answer) : 0;
#endif
    return shown > 0 ? rows[0].tip : STATION_NONE_REF;
}
