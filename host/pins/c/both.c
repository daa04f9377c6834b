/* Both archives in one program: a crew reads a staff, finds the chambers under water and pins them. */
#include "pins.h"
#include "water.h"

#include <stdio.h>

int main(void) {
    static const WaterCard card = {2, 1, 1000000, 1000000, 100, 1};
    static const WaterChamber chambers[3] = {{500000, 500000}, {1500000, 500000}, {250000, 0}};
    static const WaterWindow all = {0, 0, 2e6, 1e6};
    const int32_t ground[2] = {0, 0};
    int32_t state[9] = {0};
    uint32_t places[3] = {0}, table[PINS_PLACES] = {0}, found[PINS_EACH] = {0};
    WaterStaff staff = water_staff(WATER_METRES, 1.5);
    state[0] = staff.height;
    WaterFound wet = water_search(card, ground, 2, state, 9, chambers, 3, all, 300000, places, 3);
    int right = staff.number == 0 && wet.number == 0 && wet.count == 2;
    for (uint32_t k = 0; right && k < wet.count; k++) {
        right = pins_add(table, PINS_PLACES, 2, places[k]) == 0;
    }
    PinsListing listing = pins_list(table, PINS_PLACES, 2, found, PINS_EACH);
    right = right && listing.number == 0 && listing.count == 2 && found[0] == 0 && found[1] == 2;
    right = right && pins_remove(table, PINS_PLACES, 2, 2) == 0 && table[1] == 0;
    printf("both.c: %s\n", right ? "both archives answer" : "not so");
    return !right;
}
