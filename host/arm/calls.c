/* include/water.h's calls as this machine hands records over, over flat.c's. */
#include "flat.h"

uint32_t water_step(WaterCard card, GROUND, STATE, PUMPS, LIST(int32_t, next)) {
    return flat_step(&card, LENT(ground), LENT(state), LENT(pumps), LENT(next));
}

uint32_t water_step_textbook(WaterCard card, GROUND, STATE, PUMPS, LIST(int32_t, next)) {
    return flat_step_textbook(&card, LENT(ground), LENT(state), LENT(pumps), LENT(next));
}

WaterTally water_run(WaterCard card, GROUND, LIST(int32_t, state), PUMPS, LIST(int32_t, scratch)) {
    WaterTally tally;
    flat_run(&card, LENT(ground), LENT(state), LENT(pumps), LENT(scratch), &tally);
    return tally;
}

WaterFound water_search(WaterCard card, GROUND, STATE, LIST(const WaterChamber, chambers), WaterWindow window, int32_t depth,
                        LIST(uint32_t, found)) {
    WaterFound answer;
    flat_search(&card, LENT(ground), LENT(state), LENT(chambers), &window, depth, LENT(found), &answer);
    return answer;
}

WaterFound water_search_lists(WaterCard card, GROUND, STATE, LIST(const int64_t, xs), LIST(const int64_t, ys),
                              WaterWindow window, int32_t depth, LIST(uint32_t, found)) {
    WaterFound answer;
    flat_search_lists(&card, LENT(ground), LENT(state), LENT(xs), LENT(ys), &window, depth, LENT(found), &answer);
    return answer;
}

WaterHeard water_read_sheet(LIST(const uint8_t, sheet), LIST(int32_t, ground), LIST(int32_t, state)) {
    WaterHeard heard;
    flat_read_sheet(LENT(sheet), LENT(ground), LENT(state), &heard);
    return heard;
}

WaterWrote water_write_sheet(WaterCard card, GROUND, STATE, LIST(uint8_t, bytes)) {
    WaterWrote wrote;
    flat_write_sheet(&card, LENT(ground), LENT(state), LENT(bytes), &wrote);
    return wrote;
}

size_t water_depth_text(int32_t height, LIST(uint8_t, scratch)) {
    return flat_depth_text(height, LENT(scratch));
}

WaterStaff water_staff(uint32_t kind, double value) {
    WaterStaff staff;
    flat_staff(kind, value, &staff);
    return staff;
}

WaterRaster water_read_raster(LIST(const uint8_t, text), LIST(int32_t, ground)) {
    WaterRaster raster;
    flat_read_raster(LENT(text), LENT(ground), &raster);
    return raster;
}

WaterWrote water_write_raster(WaterCard card, GROUND, LIST(uint8_t, text)) {
    WaterWrote wrote;
    flat_write_raster(&card, LENT(ground), LENT(text), &wrote);
    return wrote;
}
