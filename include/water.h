/* water.h: what a host links. Documents 01 and 02, the papers that ordered the library, say what each call does, and so do the
 * definitions in crates/rules/specs, which stand in the repository; this page says how C reaches it.
 *
 * Every call takes any input at all: any card, any length, any word, any double. Nothing is required of the caller but that each
 * pointer reaches as many elements as the length behind it says (a length of 0 allows any pointer, NULL too), and that a list that a
 * call fills overlaps no other list of the same call. No call keeps state, allocates or fails in another way than by its number.
 *
 * Doubles are the processor's own. The thread rounds to the nearest and keeps doubles near 0, as C starts a program; it has not called
 * fesetround, nor has it set flush-to-zero or denormals-are-zero, which linking with -ffast-math does on x86-64. Otherwise water_staff may
 * answer another height, or read a value just below 0, and a search may take a window edge next to 0 for 0. No other call uses doubles.
 *
 * Numbers: 0 done, 1 card out of range, a raster's columns, rows or cellsize too (or over 64 pumps), 2 a list has the wrong length (or over
 * 1,000 chambers, or a raster is to be written of a site whose sides differ), 3 a value out of range, a wall velocity not 0, a pump's cell
 * that the site has not, a window edge or a staff reading not finite, a staff reading below 0, above 50 m or of an unknown kind, a raster's
 * no-data value among its heights, 4 a cell breaks the step limit, 5 a new height, or one that an inlet makes, exceeds 50,000,000, 7 a new
 * velocity is out of range, 8 the lent room is too short, 9 not a sheet of version 1, 10 not a raster. 6 is unused: no site gives it. The
 * lowest number that applies is given; but the sheet reader looks for 9 first, and the raster reader for 10.
 *
 * Step limit: dt*(we*dy + sn*dx) <= 1000*dx*dy in every cell, dry ones too, we being its west velocity if that points west plus
 * its east one if that points east, each without its sign, and sn the same for south and north: what leaves a cell in one step is
 * at most what it holds. A face that lets water into a cell does not count there, so water may pass through.
 *
 * Dry banks: where one of a face's cells is dry after a step and its ground is at or above the other's new surface (height plus
 * ground), the new velocity is 0. So without pumps still water with a shore stays as it is: all velocities 0, one surface over
 * neighbouring wet cells, and the ground of each dry cell at or above the surface of its wet neighbours.
 *
 * Lists: rows run south to north, and within a row west to east. Ground is columns*rows words. A state is columns*rows heights,
 * then (columns+1)*rows eastward velocities, then columns*(rows+1) northward velocities. Micrometres and micrometres a second: ground is
 * -50,000,000 to 50,000,000, a height 0 to 50,000,000, a velocity -20,000,000 to 20,000,000, and 0 on a wall, the first and the last of
 * each row's eastward and of each column's northward ones.
 *
 * Pumps: a step and a run take 0 to 64 of them, each a cell and an amount of -1,000,000 to 1,000,000 um a step. Below 0 it takes water
 * away, no more than is there; above 0 it is an inlet; 0 does nothing. The cell is its place in the ground's list, row*columns + column.
 * They act one after the other in the order of their list, several on one cell too, before each step and as part of it: a refused step
 * adds and takes nothing. They are lent as one list of words, cell and amount by turns, so that an array of WaterPump can be lent as it
 * is, (const int32_t *)pumps and 2*count; a length of 0 is no pumps.
 * Refused with 1: over 64 pumps (length/2, rounded down). 2: an odd length. 3: a cell below 0, or columns*rows or more; an amount out of
 * its range. 5: an inlet takes its cell past 50,000,000 at its turn in the list, even if a later pump would take it back; a broken step
 * limit, which is of velocities alone, is 4 before that. Where the inlets fit, the number is that of the step from the pumped state.
 * There is no friction: on a slope the last micrometre of a cell that runs dry gets faster until a step is refused with 4, or where the
 * time step is short with 7, however much water is left elsewhere (examples/README.md has measured slopes).
 *
 * Rasters: surveyors send the ground as an Esri ASCII raster, a text. Its words are parted by blanks, tabs, line feeds and carriage returns,
 * as many as there are, and by nothing else: ncols and a count, nrows and a count, xllcorner, yllcorner and cellsize with a decimal each,
 * NODATA_value and a decimal or neither, then columns*rows decimals, the heights in metres, the northern row first and each row west to
 * east. Keys stand in this order, in any letter case. A count is 1 to 12 digits. A decimal is a minus or none, 1 to 12 digits, and a point
 * and 1 to 6 digits or neither, and is taken exactly, to the micrometre: there is no plus, no exponent and no seventh place, and a digit
 * stands on both sides of a point. The corner is looked at as two decimals and dropped; cellsize becomes both sides.
 *
 * Volume: no water is made and none is lost but by pumps. The sum of a state's columns*rows heights after a step with 0, by either engine,
 * and after water_run, whatever its reason, is the sum before, plus what was added, less what was taken: without pumps it is the same. A
 * run's tally has both totals, in micrometres of height, over the steps that were accepted, each at most 640,000,000,000; a step does not
 * report them, but a run of one step is that step and does. The sum of a state in range is at most 819,200,000,000: add it up in 64 bits.
 * Times dx and times dy, each widened first (dx*dy alone takes up to 49 bits), it is the volume in cubic micrometres (10^15 to the
 * litre), up to 89 bits: a 128-bit integer where the compiler has one. To compare two states of one site the sums are enough.
 *
 * Stack that a call takes, in bytes, where the archive is rt's for x86-64. A thread takes some for itself besides, and so does a
 * loader that binds memcpy and memset only when they are first called.
 *
 *                          any input   small site   refused
 *     water_step             596,000       41,000     1,000
 *     water_step_textbook    596,000       41,000     1,000
 *     water_run              201,000       16,000     1,000
 *     water_search            38,000       38,000    38,000
 *     water_search_lists       6,000        6,000     6,000
 *     water_read_sheet         1,000        1,000     1,000
 *     water_write_sheet        1,000        1,000     1,000
 *     water_depth_text         1,000        1,000     1,000
 *     water_staff              1,000        1,000     1,000
 *     water_read_raster        1,000        1,000     1,000
 *     water_write_raster       1,000        1,000     1,000
 *
 * Small is a site whose state has at most 3,136 words, as with 32 columns and 32 rows. Without pumps a step by either engine takes
 * 398,000, on a small site 27,000. Where the state has at most 800 words, as with 16 columns and 16 rows, it takes 12,000, without pumps
 * 9,000. A run takes no more with pumps than without. Refused means with 1, 2 or 3, by the sheet reader with 9 too and by the raster
 * reader with 10: the 4, 5 and 7 of a step or a run take what the site takes. A thread that has 640,000 bytes does for every call, whatever
 * the input.
 */
#ifndef WATER_H
#define WATER_H

#include <stddef.h>
#include <stdint.h>

/* 3: water_step, water_step_textbook and water_run take pumps, and a tally has added and taken. Compile anew what was compiled
 * with an older header: its calls pass no pumps, and its tally is shorter. A call that is only added, as water_staff was and
 * the two of rasters, leaves the number as it is. */
#define WATER_VERSION 3

#ifdef __cplusplus
extern "C" {
#endif

/* The site card: columns, rows 1 to 128; dx, dy 100,000 to 20,000,000 um; dt 1 to 1,000 ms; steps wanted 0 to 10,000. */
typedef struct {
    uint32_t columns, rows, dx, dy, dt, steps;
} WaterCard;

/* A pump: its cell, by its place in the ground's list, and its amount, -1,000,000 to 1,000,000 um a step; above 0 it is an inlet. */
typedef struct {
    int32_t cell, amount;
} WaterPump;

/* What a run answers: steps done, the reason it stopped (0 if all were done), the greatest height of the starting state and each accepted
 * one, and what its pumps added and took over the steps done, in um of height. Behind top there are four bytes of padding, which hold
 * anything: compare tallies field by field, not by memcmp. */
typedef struct {
    uint32_t steps, reason;
    int32_t top;
    uint64_t added, taken;
} WaterTally;

/* The four edges of a window in micrometres, as the finger drew them. */
typedef struct {
    double west, south, east, north;
} WaterWindow;

/* A chamber of the register, in micrometres from the south-west corner. */
typedef struct {
    int64_t x, y;
} WaterChamber;

/* What a search answers. */
typedef struct {
    uint32_t number, count;
} WaterFound;

/* What the sheet reader answers. */
typedef struct {
    uint32_t number;
    WaterCard card;
} WaterHeard;

/* What the sheet writer answers, and the raster writer. */
typedef struct {
    uint32_t number, size;
} WaterWrote;

/* What a staff reading is of. */
enum { WATER_NOTHING = 0, WATER_METRES = 1, WATER_FEET = 2 };

/* What a staff reading answers: read is 1 if there is a height and 0 if there is none; height is 0 to 50,000,000 um, and 0 if there is
 * none. */
typedef struct {
    uint32_t number, read;
    int32_t height;
} WaterStaff;

/* What the raster reader answers: columns and rows 1 to 128, and side, 100,000 to 20,000,000 um, which is both sides of a card; all three 0
 * if it is refused. */
typedef struct {
    uint32_t number, columns, rows, side;
} WaterRaster;

/* Room for the raster of any site: that of 128 columns and rows, each value of 10 bytes. Of fewer, 63 + 11*columns*rows are enough. */
#define WATER_RASTER_BYTES 180287

/* One step: reads ground, state and pumps and fills next, a list of the state's length.
 * Refused with 1 to 5 or 7: next is as lent. */
uint32_t water_step(WaterCard card,
                    const int32_t *ground, size_t ground_length,
                    const int32_t *state, size_t state_length,
                    const int32_t *pumps, size_t pumps_length,
                    int32_t *next, size_t next_length);

/* The same step by the textbook engine, for those who read beside the paper (of Herbin, Latche, Nasseri and Therme): its pressure and its
 * ground, (7c) and (7d), are kept apart. With hK, hL the new heights and zK, zL the grounds of a face's two cells, the pressure term
 * hL*hL - hK*hK and the ground term (hK + hL)*(zL - zK), both doubled so that they stay whole and without gravity, which comes in with
 * time step and side, are added and, where there is water, divided by hK + hL. That leaves no rest, and what comes out is the difference
 * of the surfaces, which water_step takes as it is.
 * So whatever the input, the number and every list are water_step's. That one is the default, and what water_run repeats: the textbook
 * engine divides once more for each face with water and no dry bank, passes over no still water in its velocities, and is slower where
 * there is much water. */
uint32_t water_step_textbook(WaterCard card,
                             const int32_t *ground, size_t ground_length,
                             const int32_t *state, size_t state_length,
                             const int32_t *pumps, size_t pumps_length,
                             int32_t *next, size_t next_length);

/* As many steps as the card wants, on state itself, the pumps acting before each; scratch is a list of the state's length.
 * Reasons 1 to 3: steps, top, added and taken 0, both lists as lent. Otherwise, whatever the reason (0, 4, 5 or 7), state holds the last
 * accepted state, scratch is all zero, top is the greatest height in the starting state and each accepted one (pumped heights before a
 * step do not count), and the sum of the heights plus taken is the starting sum plus added. */
WaterTally water_run(WaterCard card,
                     const int32_t *ground, size_t ground_length,
                     int32_t *state, size_t state_length,
                     const int32_t *pumps, size_t pumps_length,
                     int32_t *scratch, size_t scratch_length);

/* The chambers inside the window whose cell is at least depth deep: their places in the register from 0, rising, each once.
 * Done: count places stand in front of found, the rest is as lent. 8: count is the room needed, found is as lent.
 * 1 to 3: count is 0, found is as lent. Depth is 0 to 50,000,000; 2 also for over 1,000 chambers. */
WaterFound water_search(WaterCard card,
                        const int32_t *ground, size_t ground_length,
                        const int32_t *state, size_t state_length,
                        const WaterChamber *chambers, size_t chambers_length,
                        WaterWindow window, int32_t depth,
                        uint32_t *found, size_t found_length);

/* The same search over a register kept as two lists; lists of unequal length are refusal 2. */
WaterFound water_search_lists(WaterCard card,
                              const int32_t *ground, size_t ground_length,
                              const int32_t *state, size_t state_length,
                              const int64_t *xs, size_t xs_length,
                              const int64_t *ys, size_t ys_length,
                              WaterWindow window, int32_t depth,
                              uint32_t *found, size_t found_length);

/* Reads a sheet into ground and state, lists of the lengths that its columns (byte 5) and rows (byte 6) ask for.
 * Refused with 9, then 1, 2 or 3: an all-zero card, both lists as lent. */
WaterHeard water_read_sheet(const uint8_t *sheet, size_t sheet_length,
                            int32_t *ground, size_t ground_length,
                            int32_t *state, size_t state_length);

/* Writes a sheet to the front of bytes, the rest as lent; its size is 19 + 16*columns*rows + 4*columns + 4*rows.
 * Refused with 1, 2, 3, or 8 where bytes is shorter than that: size 0, bytes as lent. */
WaterWrote water_write_sheet(WaterCard card,
                             const int32_t *ground, size_t ground_length,
                             const int32_t *state, size_t state_length,
                             uint8_t *bytes, size_t bytes_length);

/* The depth text of a height ("dry", "<1 cm", "123 cm") at the front of scratch, with no zero byte behind it; its length is returned
 * and the rest is as lent. 7 bytes are always enough. 0, and scratch as lent, if height is out of range or scratch is shorter than
 * the text. */
size_t water_depth_text(int32_t height, uint8_t *scratch, size_t scratch_length);

/* The height of a staff reading: so many metres or feet, as kind says, or no reading.
 * Metres are multiplied by 1,000,000 and feet by 304,800. The product is rounded once, as doubles are (to the nearest, of two as near to
 * the even one), and then goes to the nearest whole um, halves up. 1.5 m gives 1,500,000, 1 ft gives 304,800, 1/128 m (7,812.5 um) gives
 * 7,813, and -0.0 gives 0. 0.0000005 m gives 1: that double is not exactly half a um, but its product rounds to exactly 0.5.
 * Done: read is 1. WATER_NOTHING is done too, with read and height 0; its value is not looked at, and may be a NaN.
 * Refused with 3: a value that is not finite or is below 0 (-0.0 is not); a product above 50,000,000, even if it would go down to that,
 * as that of 50.0000004 m would, or one that overflows; a kind that is none of the three. Then read and height are 0. */
WaterStaff water_staff(uint32_t kind, double value);

/* Reads a raster into ground, a list of its columns*rows words, rows south to north as in every other list: the last row of the text comes
 * first. A host that does not know how many there are looks at the second and the fourth word; of a text that ends with a zero byte
 *
 *     unsigned long long columns, rows;
 *     int two = sscanf(text, "%*s %12llu %*s %12llu", &columns, &rows) == 2;
 *
 * and lends columns*rows words where there are two and each is 1 to 128, and otherwise none: then the text is refused with 10 or 1 whatever
 * is lent. That is a look for room, and no check: the library reads the text by itself. text_length is without that zero byte, which is no
 * part of a raster.
 * Refused, and looked for in this order: 10 where the text is not a raster as above, or has not just as many values as columns*rows; 1
 * where ncols or nrows is not 1 to 128 or cellsize is not 0.1 to 20 m; 2 where ground has another length; 3 where a height is not -50 to
 * 50 m, or is the no-data value, by its number and not by its letters: -9999.0 is -9999, and -0 is 0. Then columns, rows and side are 0 and
 * ground is as lent. */
WaterRaster water_read_raster(const uint8_t *text, size_t text_length,
                              int32_t *ground, size_t ground_length);

/* Writes the ground of a site with equal sides as a raster to the front of text, the rest as lent, with no zero byte behind it: lines of
 * "ncols", "nrows", "xllcorner 0", "yllcorner 0" and "cellsize", then one for each row, northern first; single blanks, six places in
 * cellsize and every value, no NODATA_value, and a line feed behind each line. It reads back as the same ground, columns, rows and side.
 * Refused with 1 (the whole card, dt and steps too), 2 where ground has another length than columns*rows or dx is not dy, 3 where a ground
 * level is out of range, 8 where text is shorter than what is to be written: size 0, text as lent. */
WaterWrote water_write_raster(WaterCard card,
                              const int32_t *ground, size_t ground_length,
                              uint8_t *text, size_t text_length);

#ifdef __cplusplus
}
#endif

#endif
