// include/pins.h from C++: it compiles without a warning, twice over, and its calls link under their plain names.
#include "pins.h"
#include "pins.h"

int main() {
    uint32_t table[PINS_PLACES] = {}, found[PINS_EACH] = {};
    const bool first = pins_add(table, PINS_PLACES, 1, 907) == 0 && pins_add(table, PINS_PLACES, 1, 12) == 0;
    const bool second = table[0] == PINS_CREW + 907 && table[1] == PINS_CREW + 12 && table[2] == 0;
    const PinsListing listing = pins_list(table, PINS_PLACES, 1, found, PINS_EACH);
    const bool third = listing.number == 0 && listing.count == 2 && found[0] == 12 && found[1] == 907;
    const bool fourth = pins_remove(table, PINS_PLACES, 2, 12) == 13 && pins_remove(table, PINS_PLACES, 1, 12) == 0;
    const PinsListing refused = pins_list(table, PINS_PLACES, 3, found, PINS_EACH), none = pins_list(nullptr, 0, 1, nullptr, 0);
    const bool fifth = refused.number == 11 && refused.count == 0 && none.number == 2;
    return first && second && third && fourth && fifth ? 0 : 1;
}
