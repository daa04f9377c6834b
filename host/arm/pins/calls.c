/* include/pins.h's calls as this machine hands the record over, over flat.c's. */
#include "flat.h"

uint32_t pins_add(uint32_t *table, size_t table_length, uint32_t crew, uint32_t chamber) {
    return flat_add(table, table_length, crew, chamber);
}

uint32_t pins_remove(uint32_t *table, size_t table_length, uint32_t crew, uint32_t chamber) {
    return flat_remove(table, table_length, crew, chamber);
}

PinsListing pins_list(const uint32_t *table, size_t table_length, uint32_t crew, uint32_t *found, size_t found_length) {
    PinsListing listing;
    flat_list(table, table_length, crew, found, found_length, &listing);
    return listing;
}
