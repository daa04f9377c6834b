/* The library's calls with every record behind a pointer: words, pointers and a float only, which every machine hands over alike. */
#include "water.h"

#define LIST(type, name) type *name, size_t name##_length
#define LENT(name) name, name##_length
#define GROUND LIST(const int32_t, ground)
#define STATE LIST(const int32_t, state)
#define PUMPS LIST(const int32_t, pumps)

uint32_t flat_step(const WaterCard *card, GROUND, STATE, PUMPS, LIST(int32_t, next));
uint32_t flat_step_textbook(const WaterCard *card, GROUND, STATE, PUMPS, LIST(int32_t, next));
void flat_run(const WaterCard *card, GROUND, LIST(int32_t, state), PUMPS, LIST(int32_t, scratch), WaterTally *tally);
void flat_search(const WaterCard *card, GROUND, STATE, LIST(const WaterChamber, chambers), const WaterWindow *window,
                 int32_t depth, LIST(uint32_t, found), WaterFound *answer);
void flat_search_lists(const WaterCard *card, GROUND, STATE, LIST(const int64_t, xs), LIST(const int64_t, ys),
                       const WaterWindow *window, int32_t depth, LIST(uint32_t, found), WaterFound *answer);
void flat_read_sheet(LIST(const uint8_t, sheet), LIST(int32_t, ground), LIST(int32_t, state), WaterHeard *heard);
void flat_write_sheet(const WaterCard *card, GROUND, STATE, LIST(uint8_t, bytes), WaterWrote *wrote);
size_t flat_depth_text(int32_t height, LIST(uint8_t, scratch));
void flat_staff(uint32_t kind, double value, WaterStaff *staff);
void flat_read_raster(LIST(const uint8_t, text), LIST(int32_t, ground), WaterRaster *raster);
void flat_write_raster(const WaterCard *card, GROUND, LIST(uint8_t, text), WaterWrote *wrote);
