/* The pin table's calls with the record behind a pointer: words and pointers only, which every machine hands over alike. */
#include "pins.h"

uint32_t flat_add(uint32_t *table, size_t table_length, uint32_t crew, uint32_t chamber);
uint32_t flat_remove(uint32_t *table, size_t table_length, uint32_t crew, uint32_t chamber);
void flat_list(const uint32_t *table, size_t table_length, uint32_t crew, uint32_t *found, size_t found_length, PinsListing *listing);
