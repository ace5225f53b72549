/*
 * The old name of refusal 2, 2 bytes, taken for the length of a hash.
 * expect: STATION_HASH_LENGTH. undeclared|undeclared identifier .STATION_HASH_LENGTH|STATION_HASH_LENGTH. was not declared
 * in: C C++
 */
#include "station.h"

#ifdef SLIP
uint8_t own[STATION_HASH_LENGTH];
#else
uint8_t own[STATION_HASH_BYTES];
#endif
