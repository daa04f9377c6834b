/* Compiled for x86-64 to LLVM's language, in which the calls below hand records over as the library's own module takes them. */
#include "flat.h"

uint32_t flat_step(const WaterCard *card, GROUND, STATE, PUMPS, LIST(int32_t, next)) {
    return water_step(*card, LENT(ground), LENT(state), LENT(pumps), LENT(next));
}

uint32_t flat_step_textbook(const WaterCard *card, GROUND, STATE, PUMPS, LIST(int32_t, next)) {
    return water_step_textbook(*card, LENT(ground), LENT(state), LENT(pumps), LENT(next));
}

void flat_run(const WaterCard *card, GROUND, LIST(int32_t, state), PUMPS, LIST(int32_t, scratch), WaterTally *tally) {
    *tally = water_run(*card, LENT(ground), LENT(state), LENT(pumps), LENT(scratch));
}

void flat_search(const WaterCard *card, GROUND, STATE, LIST(const WaterChamber, chambers), const WaterWindow *window,
                 int32_t depth, LIST(uint32_t, found), WaterFound *answer) {
    *answer = water_search(*card, LENT(ground), LENT(state), LENT(chambers), *window, depth, LENT(found));
}

void flat_search_lists(const WaterCard *card, GROUND, STATE, LIST(const int64_t, xs), LIST(const int64_t, ys),
                       const WaterWindow *window, int32_t depth, LIST(uint32_t, found), WaterFound *answer) {
    *answer = water_search_lists(*card, LENT(ground), LENT(state), LENT(xs), LENT(ys), *window, depth, LENT(found));
}

void flat_read_sheet(LIST(const uint8_t, sheet), LIST(int32_t, ground), LIST(int32_t, state), WaterHeard *heard) {
    *heard = water_read_sheet(LENT(sheet), LENT(ground), LENT(state));
}

void flat_write_sheet(const WaterCard *card, GROUND, STATE, LIST(uint8_t, bytes), WaterWrote *wrote) {
    *wrote = water_write_sheet(*card, LENT(ground), LENT(state), LENT(bytes));
}

size_t flat_depth_text(int32_t height, LIST(uint8_t, scratch)) {
    return water_depth_text(height, LENT(scratch));
}

void flat_staff(uint32_t kind, double value, WaterStaff *staff) {
    *staff = water_staff(kind, value);
}

void flat_read_raster(LIST(const uint8_t, text), LIST(int32_t, ground), WaterRaster *raster) {
    *raster = water_read_raster(LENT(text), LENT(ground));
}

void flat_write_raster(const WaterCard *card, GROUND, LIST(uint8_t, text), WaterWrote *wrote) {
    *wrote = water_write_raster(*card, LENT(ground), LENT(text));
}
