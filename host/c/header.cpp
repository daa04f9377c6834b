// include/water.h from C++: it compiles without a warning, twice over, and its calls link under their plain names.
#include "water.h"
#include "water.h"

int main() {
    const WaterCard card = {1, 1, 1000000, 1000000, 100, 1};
    const int32_t ground[1] = {0};
    const int32_t state[5] = {7, 0, 0, 0, 0};
    int32_t next[5] = {}, textbook[5] = {};
    const bool first = water_step(card, ground, 1, state, 5, nullptr, 0, next, 5) == 0 && next[0] == 7;
    const bool second = water_step_textbook(card, ground, 1, state, 5, nullptr, 0, textbook, 5) == 0 && textbook[0] == 7;
    // an array of records, lent as words
    const WaterPump pumps[2] = {{0, 20}, {0, -5}};
    const int32_t *words = reinterpret_cast<const int32_t *>(pumps);
    const bool third = water_step(card, ground, 1, state, 5, words, 4, next, 5) == 0 && next[0] == 22;
    int32_t run[5] = {7, 0, 0, 0, 0}, scratch[5] = {};
    const WaterTally tally = water_run(card, ground, 1, run, 5, words, 4, scratch, 5);
    const bool fourth = tally.steps == 1 && tally.reason == 0 && tally.top == 22 && tally.added == 20 && tally.taken == 5;
    const WaterStaff metres = water_staff(WATER_METRES, 1.5), feet = water_staff(WATER_FEET, 1.0), none = water_staff(WATER_NOTHING, 1.5);
    const bool fifth = metres.number == 0 && metres.read == 1 && metres.height == 1500000 && feet.height == 304800 && none.read == 0;
    const WaterStaff below = water_staff(WATER_METRES, -1.5), unknown = water_staff(3, 1.5);
    const bool sixth = below.number == 3 && below.read == 0 && below.height == 0 && unknown.number == 3;
    // room in an array, as the header gives it
    static uint8_t text[WATER_RASTER_BYTES];
    const WaterWrote wrote = water_write_raster(card, ground, 1, text, sizeof text);
    int32_t back[1] = {7};
    const WaterRaster raster = water_read_raster(text, wrote.size, back, 1);
    const bool seventh = wrote.number == 0 && raster.number == 0 && raster.columns == 1 && raster.rows == 1 && raster.side == 1000000 && back[0] == 0;
    return first && second && third && fourth && fifth && sixth && seventh ? 0 : 1;
}
