/* Compiled for x86-64 to LLVM's language, in which the calls below hand the record over as the pin table's own module does. */
#include "flat.h"

uint32_t flat_add(uint32_t *table, size_t table_length, uint32_t crew, uint32_t chamber) {
    return pins_add(table, table_length, crew, chamber);
}

uint32_t flat_remove(uint32_t *table, size_t table_length, uint32_t crew, uint32_t chamber) {
    return pins_remove(table, table_length, crew, chamber);
}

void flat_list(const uint32_t *table, size_t table_length, uint32_t crew, uint32_t *found, size_t found_length, PinsListing *listing) {
    *listing = pins_list(table, table_length, crew, found, found_length);
}
