/* Document 01's numbers from C, with include/water.h as a host would use it. Each list is lent twice over: from the heap at its exact
 * size, for valgrind to watch, and from pages of its own with its end against a fence, which stops the program at the first byte
 * read or written beyond it. */
#define _DEFAULT_SOURCE
#include "water.h"

#include <math.h>
#include <stdio.h>
#include <stdlib.h>
#include <string.h>
#include <sys/mman.h>

/* ---- what the header promises of the layouts; tests/water/layout.rs holds Rust's to the same table */

#define PLACE(record, field, offset) _Static_assert(offsetof(record, field) == (offset), #record "." #field)
#define SIZE(record, size) _Static_assert(sizeof(record) == (size), #record)

SIZE(WaterCard, 24);
PLACE(WaterCard, columns, 0);
PLACE(WaterCard, rows, 4);
PLACE(WaterCard, dx, 8);
PLACE(WaterCard, dy, 12);
PLACE(WaterCard, dt, 16);
PLACE(WaterCard, steps, 20);
SIZE(WaterPump, 8);
PLACE(WaterPump, cell, 0);
PLACE(WaterPump, amount, 4);
SIZE(WaterTally, 32);
PLACE(WaterTally, steps, 0);
PLACE(WaterTally, reason, 4);
PLACE(WaterTally, top, 8);
PLACE(WaterTally, added, 16);
PLACE(WaterTally, taken, 24);
SIZE(WaterWindow, 32);
PLACE(WaterWindow, west, 0);
PLACE(WaterWindow, south, 8);
PLACE(WaterWindow, east, 16);
PLACE(WaterWindow, north, 24);
SIZE(WaterChamber, 16);
PLACE(WaterChamber, x, 0);
PLACE(WaterChamber, y, 8);
SIZE(WaterFound, 8);
PLACE(WaterFound, number, 0);
PLACE(WaterFound, count, 4);
SIZE(WaterHeard, 28);
PLACE(WaterHeard, number, 0);
PLACE(WaterHeard, card, 4);
SIZE(WaterWrote, 8);
PLACE(WaterWrote, number, 0);
PLACE(WaterWrote, size, 4);
SIZE(WaterStaff, 12);
PLACE(WaterStaff, number, 0);
PLACE(WaterStaff, read, 4);
PLACE(WaterStaff, height, 8);
SIZE(WaterRaster, 16);
PLACE(WaterRaster, number, 0);
PLACE(WaterRaster, columns, 4);
PLACE(WaterRaster, rows, 8);
PLACE(WaterRaster, side, 12);

/* ---- counting */

static int passed, failed;

#define EXPECT(fact)                                                      \
    do {                                                                  \
        if (fact) {                                                       \
            passed++;                                                     \
        } else {                                                          \
            failed++;                                                     \
            printf("%s:%d: not so: %s\n", __FILE__, __LINE__, #fact);     \
        }                                                                 \
    } while (0)

/* ---- lending */

enum { PAGE = 65536, MOST = 16 };

static int fenced;
static struct {
    void *start;
    size_t size;
} lent[MOST];
static int lists;

/* A copy of so many bytes, until the next hand_back. */
static void *lend(const void *content, size_t bytes) {
    char *list;
    if (lists == MOST) {
        abort();
    }
    if (fenced) {
        size_t pages = (bytes / PAGE + 1) * PAGE;
        char *start = mmap(NULL, pages + PAGE, PROT_READ | PROT_WRITE, MAP_PRIVATE | MAP_ANONYMOUS, -1, 0);
        if (start == MAP_FAILED || mprotect(start + pages, PAGE, PROT_NONE) != 0) {
            abort();
        }
        lent[lists].start = start;
        lent[lists].size = pages + PAGE;
        list = start + pages - bytes;
    } else {
        list = malloc(bytes ? bytes : 1);
        if (list == NULL) {
            abort();
        }
        lent[lists].start = list;
        lent[lists].size = 0;
    }
    lists++;
    if (bytes > 0) {
        memcpy(list, content, bytes);
    }
    return list;
}

static void hand_back(void) {
    while (lists > 0) {
        lists--;
        if (lent[lists].size > 0) {
            munmap(lent[lists].start, lent[lists].size);
        } else {
            free(lent[lists].start);
        }
    }
}

#define LEND(list) lend(list, sizeof list)
#define SAME(list, expected) (memcmp(list, expected, sizeof expected) == 0)

/* ---- how much water there is, as the header says */

__extension__ typedef unsigned __int128 Volume;

static int64_t sum_of_heights(WaterCard site, const int32_t *state) {
    int64_t sum = 0;
    for (uint32_t k = 0; k < site.columns * site.rows; k++) {
        sum += state[k];
    }
    return sum;
}

static Volume volume(WaterCard site, const int32_t *state) {
    return (Volume)sum_of_heights(site, state) * site.dx * site.dy;
}

/* ---- the numbers */

/* A step by both engines, on next and on a copy of it: one number, and the same words. So many words of pumps are lent. */
static uint32_t pumped_by_both(WaterCard site, const int32_t *ground, size_t cells, const int32_t *state, size_t words,
                               const int32_t *pumps, size_t pumps_length, int32_t *next) {
    int32_t *textbook = lend(next, words * sizeof *next);
    uint32_t number = water_step(site, ground, cells, state, words, pumps, pumps_length, next, words);
    EXPECT(water_step_textbook(site, ground, cells, state, words, pumps, pumps_length, textbook, words) == number);
    EXPECT(memcmp(textbook, next, words * sizeof *next) == 0);
    return number;
}

static uint32_t step_by_both(WaterCard site, const int32_t *ground, size_t cells, const int32_t *state, size_t words, int32_t *next) {
    return pumped_by_both(site, ground, cells, state, words, NULL, 0, next);
}

static const WaterCard card = {2, 1, 1000000, 1000000, 100, 0};
static const int32_t flat[2] = {0, 0};

static uint32_t step(const int32_t ground[2], const int32_t state[9], int32_t next[9]) {
    static const int32_t as_lent[9] = {-7, -7, -7, -7, -7, -7, -7, -7, -7};
    const int32_t *g = lend(ground, 8);
    const int32_t *s = lend(state, 36);
    int32_t *n = LEND(as_lent);
    uint32_t number = step_by_both(card, g, 2, s, 9, n);
    EXPECT(memcmp(g, ground, 8) == 0 && memcmp(s, state, 36) == 0);
    EXPECT(number == 0 ? sum_of_heights(card, n) == sum_of_heights(card, state) : SAME(n, as_lent));
    memcpy(next, n, 36);
    hand_back();
    return number;
}

static void steps(void) {
    int32_t still[9] = {2000000, 1000000, 0, 0, 0, 0, 0, 0, 0};
    const int32_t first[9] = {2000000, 1000000, 0, 980665, 0, 0, 0, 0, 0};
    const int32_t second[9] = {1803867, 1196133, 0, 1512534, 0, 0, 0, 0, 0};
    const int32_t emptied[9] = {0, 3000000, 0, 391338, 0, 0, 0, 0, 0};
    int32_t three[9] = {3, 3, 0, 5000000, 0, 0, 0, 0, 0};
    int32_t next[9], after[9];
    EXPECT(step(flat, still, next) == 0 && SAME(next, first));
    EXPECT(step(flat, next, after) == 0 && SAME(after, second));
    still[3] = 10000000;
    EXPECT(step(flat, still, next) == 0 && SAME(next, emptied));
    still[3] = 10000001;
    EXPECT(step(flat, still, next) == 4);
    EXPECT(step(flat, three, next) == 0 && next[0] == 2 && next[1] == 4);
    three[3] = -5000000;
    EXPECT(step(flat, three, next) == 0 && next[0] == 4 && next[1] == 2);
}

/* Each refusal of a step but 4, which steps() has, by both engines: the list stays as lent. */
static void refused_steps(void) {
    static const int32_t cliff[2] = {-50000000, 50000000};
    const WaterCard no_time = {2, 1, 1000000, 1000000, 0, 0};
    const int32_t still[9] = {2000000, 1000000}, full[9] = {50000000, 50000000}, below[9] = {-1, 0}, over[9] = {50000000, 50000000, 0, 1};
    int32_t next[9] = {-7, -7, -7, -7, -7, -7, -7, -7, -7}, lent[9];
    memcpy(lent, next, sizeof next);
    EXPECT(step_by_both(no_time, flat, 2, still, 9, next) == 1 && SAME(next, lent));
    EXPECT(step_by_both(card, flat, 1, still, 9, next) == 2 && SAME(next, lent));
    EXPECT(step(flat, below, next) == 3);
    EXPECT(step(flat, over, next) == 5);
    EXPECT(step(cliff, full, next) == 7);
    hand_back();
}

/* document 02, [2]: a dry bank does not pull, nor one that is just as high as the water; 1 um below the surface there is no bank */
static void dry_banks(void) {
    static const int32_t high[2] = {0, 1500000}, level[2] = {0, 1000000}, low[2] = {0, 999999};
    const int32_t still[9] = {1000000, 0, 0, 0, 0, 0, 0, 0, 0};
    const int32_t left[9] = {1000000, 0, 0, -3000000, 0, 0, 0, 0, 0};
    int32_t next[9];
    EXPECT(step(high, still, next) == 0 && SAME(next, still));
    EXPECT(step(level, left, next) == 0 && SAME(next, still));
    EXPECT(step(low, left, next) == 0 && SAME(next, left));
}

/* document 02, [9]: both inner faces of three cells at 6,000,000 */
static void passing_through(void) {
    static const WaterCard wide = {3, 1, 1000000, 1000000, 100, 0};
    static const int32_t ground[3] = {0, 0, 0};
    static const int32_t state[13] = {1000000, 1000000, 1000000, 0, 6000000, 6000000};
    static const int32_t then[13] = {400000, 1000000, 1600000, 0, 2840172, 5411601};
    static const int32_t blank[13] = {1};
    int32_t *next = LEND(blank);
    EXPECT(step_by_both(wide, LEND(ground), 3, LEND(state), 13, next) == 0 && SAME(next, then));
    hand_back();
}

static void at_rest(void) {
    static const WaterCard wide = {3, 1, 1000000, 1000000, 100, 0};
    static const int32_t ground[3] = {0, 400000, 100000};
    static const int32_t state[13] = {1000000, 600000, 900000};
    static const int32_t blank[13] = {1};
    int32_t *next = LEND(blank);
    EXPECT(step_by_both(wide, LEND(ground), 3, LEND(state), 13, next) == 0 && SAME(next, state));
    hand_back();
}

static void run(uint32_t columns, uint32_t wanted, uint32_t reason) {
    static const int32_t seven[5] = {7, 0, 0, 0, 0};
    static const int32_t fives[5] = {5, 5, 5, 5, 5};
    static const int32_t zeros[5] = {0, 0, 0, 0, 0};
    const WaterCard one = {columns, 1, 1000000, 1000000, 100, wanted};
    int32_t *state = LEND(seven);
    int32_t *scratch = LEND(fives);
    WaterTally tally = water_run(one, LEND(zeros), 1, state, 5, NULL, 0, scratch, 5);
    EXPECT(tally.reason == reason && tally.steps == (reason ? 0 : wanted) && tally.top == (reason ? 0 : 7));
    EXPECT(tally.added == 0 && tally.taken == 0);
    EXPECT(SAME(state, seven));
    EXPECT(reason ? SAME(scratch, fives) : SAME(scratch, zeros));
    hand_back();
}

/* ---- pumps and inlets, document 02, [10] */

/* Two still cells, so wide and for so short a time that the heights after a step are the pumped ones. */
static const WaterCard wide = {2, 1, 20000000, 20000000, 1, 1};

/* The pumps of an array of records, so many words of it, on two cells of these heights: a step by both engines and a run of one step, which
 * give one number, leave the same state and balance. */
static uint32_t pumped(const WaterPump *pumps, size_t words, const int32_t heights[2], int32_t after[2], WaterTally *tally) {
    static const int32_t as_lent[9] = {-7, -7, -7, -7, -7, -7, -7, -7, -7}, zeros[9] = {0};
    const int32_t state[9] = {heights[0], heights[1]};
    const int32_t *g = LEND(flat), *s = LEND(state), *p = lend(pumps, words * sizeof(int32_t));
    int32_t *n = LEND(as_lent), *run = LEND(state), *scratch = LEND(as_lent);
    uint32_t number = pumped_by_both(wide, g, 2, s, 9, p, words, n);
    *tally = water_run(wide, g, 2, run, 9, p, words, scratch, 9);
    EXPECT(tally->reason == number && tally->steps == (number == 0));
    EXPECT(memcmp(s, state, sizeof state) == 0 && memcmp(p, pumps, words * sizeof(int32_t)) == 0 && SAME(g, flat));
    EXPECT(number == 0 ? memcmp(n, run, sizeof state) == 0 : SAME(n, as_lent) && SAME(run, state));
    EXPECT(number >= 1 && number <= 3 ? SAME(scratch, as_lent) && tally->top == 0 : SAME(scratch, zeros));
    EXPECT(number == 0 || (tally->added == 0 && tally->taken == 0));
    EXPECT((uint64_t)sum_of_heights(wide, run) + tally->taken == (uint64_t)sum_of_heights(wide, state) + tally->added);
    memcpy(after, run, 2 * sizeof *after);
    hand_back();
    return number;
}

static int makes(const WaterPump *pumps, size_t count, int32_t west, int32_t east, int32_t new_west, int32_t new_east, uint64_t added,
                 uint64_t taken) {
    const int32_t heights[2] = {west, east};
    int32_t after[2];
    WaterTally tally;
    uint32_t number = pumped(pumps, 2 * count, heights, after, &tally);
    return number == 0 && after[0] == new_west && after[1] == new_east && tally.added == added && tally.taken == taken;
}

static uint32_t refused(const WaterPump *pumps, size_t words, int32_t west, int32_t east) {
    const int32_t heights[2] = {west, east};
    int32_t after[2];
    WaterTally tally;
    return pumped(pumps, words, heights, after, &tally);
}

static void pumps_and_inlets(void) {
    const WaterPump inlet[1] = {{1, 300}}, pump[1] = {{1, -300}}, none[1] = {{1, 0}};
    const WaterPump in_out[2] = {{0, 300000}, {0, -800000}}, out_in[2] = {{0, -800000}, {0, 300000}};
    EXPECT(makes(inlet, 1, 5, 7, 5, 307, 300, 0));
    EXPECT(makes(pump, 1, 5, 301, 5, 1, 0, 300));
    EXPECT(makes(pump, 1, 5, 299, 5, 0, 0, 299));
    /* on a dry cell; an amount of 0; no pumps at all */
    EXPECT(makes(pump, 1, 5, 0, 5, 0, 0, 0));
    EXPECT(makes(none, 1, 5, 7, 5, 7, 0, 0));
    EXPECT(makes(inlet, 0, 5, 7, 5, 7, 0, 0));
    /* two on one cell, in both orders */
    EXPECT(makes(in_out, 2, 500000, 9, 0, 9, 300000, 800000));
    EXPECT(makes(out_in, 2, 500000, 9, 300000, 9, 300000, 500000));
    EXPECT(makes(in_out, 2, 800000, 9, 300000, 9, 300000, 800000) && makes(out_in, 2, 800000, 9, 300000, 9, 300000, 800000));
}

static void pumps_at_the_top(void) {
    const WaterPump inlet[1] = {{1, 1000000}}, taken_back[2] = {{1, 1000000}, {1, -1000000}}, made_room[2] = {{1, -1}, {1, 1000000}};
    EXPECT(makes(inlet, 1, 5, 49000000, 5, 50000000, 1000000, 0));
    EXPECT(refused(inlet, 2, 5, 49000001) == 5);
    EXPECT(refused(taken_back, 4, 5, 49000001) == 5);
    EXPECT(makes(taken_back, 2, 5, 49000000, 5, 49000000, 1000000, 1000000));
    EXPECT(makes(made_room, 2, 5, 49000001, 5, 50000000, 1000000, 1));
    /* a broken step limit comes before it */
    static const int32_t blank[9] = {-7};
    const int32_t slow[9] = {0, 50000000, 0, 10000000}, fast[9] = {0, 50000000, 0, 10000001};
    int32_t *next = LEND(blank);
    EXPECT(pumped_by_both(card, LEND(flat), 2, LEND(slow), 9, lend(inlet, sizeof inlet), 2, next) == 5 && SAME(next, blank));
    EXPECT(pumped_by_both(card, LEND(flat), 2, LEND(fast), 9, lend(inlet, sizeof inlet), 2, next) == 4 && SAME(next, blank));
    hand_back();
}

static void refused_pumps(void) {
    WaterPump pumps[66];
    for (int k = 0; k < 66; k++) {
        pumps[k].cell = k % 2;
        pumps[k].amount = 1;
    }
    EXPECT(makes(pumps, 64, 0, 0, 32, 32, 64, 0));
    EXPECT(refused(pumps, 130, 0, 0) == 1);
    EXPECT(refused(pumps, 131, 0, 0) == 1);
    /* 64 pumps and a word left over; one word; an odd length in between */
    EXPECT(refused(pumps, 129, 0, 0) == 2);
    EXPECT(refused(pumps, 1, 0, 0) == 2);
    EXPECT(refused(pumps, 127, 0, 0) == 2);
    static const int32_t cells[] = {-1, 2, 3, INT32_MIN, INT32_MAX}, amounts[] = {-1000001, 1000001, INT32_MIN, INT32_MAX};
    for (size_t k = 0; k < sizeof cells / sizeof *cells; k++) {
        WaterPump wrong[2] = {{0, 1}, {cells[k], 0}};
        EXPECT(refused(wrong, 4, 0, 0) == 3);
    }
    for (size_t k = 0; k < sizeof amounts / sizeof *amounts; k++) {
        WaterPump wrong[2] = {{0, 1}, {1, amounts[k]}};
        EXPECT(refused(wrong, 4, 0, 0) == 3);
    }
    const WaterPump ends[2] = {{0, -1000000}, {1, 1000000}};
    EXPECT(makes(ends, 2, 3000000, 0, 2000000, 1000000, 1000000, 1000000));
}

/* A run of many steps balances, and its totals are over the accepted steps. */
static void pumped_run(void) {
    static const int32_t start[9] = {49000000, 200000}, seven[9] = {7, 7, 7, 7, 7, 7, 7, 7, 7};
    static const int32_t cliff[2] = {-49000000, 1000000};
    static const WaterCard many = {2, 1, 20000000, 20000000, 1, 10000};
    const WaterPump pumps[3] = {{0, 10000}, {1, -3000}, {0, -1000}};
    int32_t *state = LEND(start), *scratch = LEND(seven);
    WaterTally tally = water_run(many, LEND(cliff), 2, state, 9, (const int32_t *)lend(pumps, sizeof pumps), 6, scratch, 9);
    EXPECT(tally.reason == 5 && tally.steps > 66 && tally.steps < 10000 && scratch[0] == 0);
    EXPECT(tally.added == 10000 * (uint64_t)tally.steps && tally.taken >= 1000 * (uint64_t)tally.steps + 100000);
    EXPECT(tally.taken < 4000 * (uint64_t)tally.steps);
    EXPECT((uint64_t)sum_of_heights(many, state) + tally.taken == 49200000 + tally.added);
    EXPECT(volume(many, state) + (Volume)tally.taken * many.dx * many.dy == volume(many, start) + (Volume)tally.added * many.dx * many.dy);
    hand_back();
}

static WaterFound search(int64_t x, WaterWindow window, int32_t depth, int in_lists) {
    static const int32_t state[9] = {2000000, 1000000, 0, 0, 0, 0, 0, 0, 0};
    static const uint32_t as_lent[2] = {77, 77};
    const WaterChamber chamber[1] = {{x, 0}};
    const int64_t xs[1] = {x}, ys[1] = {0};
    const int32_t *g = LEND(flat);
    const int32_t *s = LEND(state);
    uint32_t *found = LEND(as_lent);
    WaterFound answer = in_lists ? water_search_lists(card, g, 2, s, 9, LEND(xs), 1, LEND(ys), 1, window, depth, found, 2)
                                 : water_search(card, g, 2, s, 9, LEND(chamber), 1, window, depth, found, 2);
    EXPECT(found[0] == (answer.number == 0 && answer.count == 1 ? 0 : 77) && found[1] == 77);
    hand_back();
    return answer;
}

static void searches(int in_lists) {
    const WaterWindow all = {-1, -1, 3e6, 3e6};
    const WaterWindow beside = {1000000.25, -1, 3e6, 3e6};
    const WaterWindow infinite = {-1, -1, 3e6, 1e308 * 10};
    EXPECT(search(1000000, all, 1000000, in_lists).count == 1);
    EXPECT(search(1000000, all, 1000001, in_lists).count == 0);
    EXPECT(search(2000000, all, 1000000, in_lists).count == 1);
    EXPECT(search(2000000, all, 1000001, in_lists).count == 0);
    EXPECT(search(2000001, all, 0, in_lists).number == 3);
    EXPECT(search(1000000, beside, 0, in_lists).count == 0);
    EXPECT(search(1000000, infinite, 0, in_lists).number == 3);
}

static void sheet(void) {
    static const WaterCard two = {2, 1, 1000000, 1000000, 100, 2};
    static const int32_t state[9] = {2000000, 1000000, 0, 0, 0, 0, 0, 0, 0};
    static const uint8_t head[19] = {0, 0, 0, 63, 1, 2, 1, 0, 15, 66, 64, 0, 15, 66, 64, 0, 100, 0, 2};
    static const uint8_t room[64] = {0};
    static const WaterCard none = {0, 0, 0, 0, 0, 0};
    static const int32_t other[9] = {9, 9, 9, 9, 9, 9, 9, 9, 9};
    uint8_t *bytes = LEND(room);
    int32_t *ground = lend(other, 8);
    int32_t *back = LEND(other);
    WaterWrote wrote;
    WaterHeard heard;
    bytes[63] = 0xee;
    wrote = water_write_sheet(two, LEND(flat), 2, LEND(state), 9, bytes, 64);
    EXPECT(wrote.number == 0 && wrote.size == 63 && SAME(bytes, head) && bytes[63] == 0xee);
    heard = water_read_sheet(bytes, 62, ground, 2, back, 9);
    EXPECT(heard.number == 9 && memcmp(&heard.card, &none, sizeof none) == 0 && SAME(back, other) && ground[0] == 9);
    heard = water_read_sheet(bytes, 63, ground, 2, back, 8);
    EXPECT(heard.number == 2 && memcmp(&heard.card, &none, sizeof none) == 0 && SAME(back, other) && ground[0] == 9);
    heard = water_read_sheet(bytes, 63, ground, 2, back, 9);
    EXPECT(heard.number == 0 && memcmp(&heard.card, &two, sizeof two) == 0 && SAME(back, state) && SAME(ground, flat));
    wrote = water_write_sheet(two, LEND(flat), 2, LEND(state), 9, lend(NULL, 0), 0);
    EXPECT(wrote.number == 8 && wrote.size == 0);
    hand_back();
}

static int text_is(int32_t height, const char *text) {
    static const char as_lent[8] = "-------";
    size_t length = strlen(text);
    int right = 1;
    for (size_t room = 0; room <= 7; room++) {
        char *scratch = lend(as_lent, room);
        size_t fits = room < length ? 0 : length;
        size_t written = water_depth_text(height, (uint8_t *)scratch, room);
        right = right && written == fits && memcmp(scratch, text, fits) == 0 && memcmp(scratch + fits, as_lent + fits, room - fits) == 0;
        hand_back();
    }
    return right;
}

static void texts(void) {
    EXPECT(text_is(0, "dry"));
    EXPECT(text_is(9999, "<1 cm"));
    EXPECT(text_is(10000, "1 cm"));
    EXPECT(text_is(14999, "1 cm"));
    EXPECT(text_is(15000, "2 cm"));
    EXPECT(text_is(50000000, "5000 cm"));
    EXPECT(text_is(50000001, ""));
    EXPECT(text_is(-1, ""));
}

/* ---- staff readings, document 02, [1] */

static int staff_is(uint32_t kind, double value, uint32_t number, uint32_t read, int32_t height) {
    WaterStaff staff = water_staff(kind, value);
    return staff.number == number && staff.read == read && staff.height == height;
}

static int reads(uint32_t kind, double value, int32_t height) {
    return staff_is(kind, value, 0, 1, height);
}

static int refuses(uint32_t kind, double value) {
    return staff_is(kind, value, 3, 0, 0);
}

/* A double by its bits. */
static double of_bits(uint64_t bits) {
    double value;
    memcpy(&value, &bits, sizeof value);
    return value;
}

static void staff_readings(void) {
    EXPECT(reads(WATER_METRES, 1.5, 1500000));
    EXPECT(reads(WATER_FEET, 1, 304800));
    EXPECT(reads(WATER_METRES, 0, 0) && reads(WATER_FEET, 0, 0));
    EXPECT(reads(WATER_METRES, -0.0, 0) && reads(WATER_FEET, -0.0, 0));
    /* exact halves go up */
    EXPECT(reads(WATER_METRES, 1 / 128.0, 7813) && reads(WATER_METRES, 3 / 128.0, 23438));
    EXPECT(reads(WATER_FEET, 1 / 64.0, 4763));
    /* and products that round to a half; that of the double before each is just below it */
    EXPECT(reads(WATER_METRES, 0.0000005, 1) && reads(WATER_METRES, 4.999999999999999e-07, 0));
    EXPECT(reads(WATER_FEET, 1.6404199475065617e-06, 1) && reads(WATER_FEET, 1.6404199475065615e-06, 0));
    EXPECT(reads(WATER_METRES, of_bits(1), 0) && reads(WATER_FEET, of_bits(1), 0));
    /* the greatest, and the next one */
    EXPECT(reads(WATER_METRES, 50, 50000000) && refuses(WATER_METRES, 50.00000000000001));
    EXPECT(reads(WATER_FEET, 164.04199475065616, 50000000) && refuses(WATER_FEET, 164.0419947506562));
}

static void no_staff_reading(void) {
    EXPECT(staff_is(WATER_NOTHING, 0, 0, 0, 0));
    EXPECT(staff_is(WATER_NOTHING, 1.5, 0, 0, 0));
    EXPECT(staff_is(WATER_NOTHING, -1, 0, 0, 0));
    EXPECT(staff_is(WATER_NOTHING, NAN, 0, 0, 0) && staff_is(WATER_NOTHING, INFINITY, 0, 0, 0));
}

static void refused_staff_readings(void) {
    static const uint64_t not_a_number[] = {0x7ff8000000000000, 0x7ff0000000000001, 0xfff8000000000000, 0xfff0000000000001, 0xffffffffffffffff};
    static const uint32_t unknown[] = {3, 4, 5, 256, 257, 258, 0x10001, 0x80000000, 0x80000001, UINT32_MAX};
    for (uint32_t kind = WATER_METRES; kind <= WATER_FEET; kind++) {
        EXPECT(refuses(kind, INFINITY) && refuses(kind, -INFINITY));
        for (size_t k = 0; k < sizeof not_a_number / sizeof *not_a_number; k++) {
            EXPECT(refuses(kind, of_bits(not_a_number[k])));
        }
        EXPECT(refuses(kind, -1) && refuses(kind, -of_bits(1)));
        EXPECT(refuses(kind, 200) && refuses(kind, 1e300) && refuses(kind, 1.7976931348623157e308));
    }
    /* 50,000,000.4 would go down */
    EXPECT(refuses(WATER_METRES, 50.0000004));
    EXPECT(refuses(WATER_FEET, 164.041996));
    for (size_t k = 0; k < sizeof unknown / sizeof *unknown; k++) {
        EXPECT(refuses(unknown[k], 1.5) && refuses(unknown[k], 0) && refuses(unknown[k], NAN));
    }
}

/* ---- surveyors' rasters, document 02, [3] */

/* How long a ground list a text asks for, by the look that the header shows; none where that finds no sizes in range. */
static size_t asked_for(const char *text) {
    unsigned long long columns, rows;
    int two = sscanf(text, "%*s %12llu %*s %12llu", &columns, &rows) == 2;
    return two && columns >= 1 && columns <= 128 && rows >= 1 && rows <= 128 ? (size_t)(columns * rows) : 0;
}

enum { FEW = 16 };

/* A text read into so many words, which are copied out; the text is left as it is. Refused, it answers its number alone, and the list is as
 * lent. */
static WaterRaster raster_into(const char *text, size_t words, int32_t ground[FEW]) {
    int32_t as_lent[FEW];
    for (int k = 0; k < FEW; k++) {
        as_lent[k] = -77 - k;
    }
    size_t length = strlen(text);
    const uint8_t *t = lend(text, length);
    int32_t *g = lend(as_lent, words * sizeof *g);
    WaterRaster raster = water_read_raster(t, length, g, words);
    EXPECT(length == 0 || memcmp(t, text, length) == 0);
    if (raster.number != 0) {
        EXPECT(raster.columns == 0 && raster.rows == 0 && raster.side == 0);
        EXPECT(words == 0 || memcmp(g, as_lent, words * sizeof *g) == 0);
    }
    if (words > 0) {
        memcpy(ground, g, words * sizeof *g);
    }
    hand_back();
    return raster;
}

/* The number of a text that is read into as many words as it asks for. */
static uint32_t raster_number(const char *text) {
    int32_t ground[FEW];
    size_t words = asked_for(text);
    return raster_into(text, words <= FEW ? words : 0, ground).number;
}

#define HEAD(columns, rows, side) "ncols " columns "\nnrows " rows "\nxllcorner 0\nyllcorner 0\ncellsize " side "\n"

static void rasters_read(void) {
    static const char padded[] = "NCOLS        3\r\nNROWS        2\r\nXLLCORNER    431000.5\r\nYLLCORNER    -12\r\nCELLSIZE     0.25\r\n"
                                 "NODATA_VALUE -9999\r\n 1 -0.5 12.345678\r\n\t0 -0 -50.000000";
    static const int32_t ground[6] = {0, 0, -50000000, 1000000, -500000, 12345678};
    int32_t back[FEW];
    EXPECT(asked_for(padded) == 6);
    WaterRaster raster = raster_into(padded, 6, back);
    EXPECT(raster.number == 0 && raster.columns == 3 && raster.rows == 2 && raster.side == 250000 && SAME(back, ground));
    /* on one line; without a no-data value; leading noughts; the ends of cellsize */
    EXPECT(raster_number("ncols 1 nrows 1 xllcorner 0 yllcorner 0 cellsize 0.1 50") == 0);
    EXPECT(raster_number("ncols 000000000001 nrows 01 xllcorner -0 yllcorner 00 cellsize 20.000000 -000000000050.0") == 0);
    EXPECT(raster_number("\n\rncols\t1\rnrows\n1 xllcorner 0 yllcorner 0 cellsize 1 nodata_value 7 7.000001\t\n\r ") == 0);
}

static void rasters_refused(void) {
    static const char six[] = HEAD("3", "2", "1") "1 2 3\n4 5 6\n";
    int32_t back[FEW];
    /* 10: no text; keys; words that are no such numbers; how many values there are, and products that overflow */
    EXPECT(raster_number("") == 10 && raster_number(" \n") == 10 && raster_number("ncols 3") == 10);
    EXPECT(raster_number("nrows 1 ncols 1 xllcorner 0 yllcorner 0 cellsize 1 5") == 10);
    EXPECT(raster_number("ncols 1 nrows 1 xllcenter 0 yllcenter 0 cellsize 1 5") == 10);
    EXPECT(raster_number(HEAD("1", "1", "1") "+5") == 10 && raster_number(HEAD("1", "1", "1") "5e0") == 10);
    EXPECT(raster_number(HEAD("1", "1", "1") ".5") == 10 && raster_number(HEAD("1", "1", "1") "5.") == 10);
    EXPECT(raster_number(HEAD("1", "1", "1") "5.0000000") == 10 && raster_number(HEAD("1", "1", "1") "0000000000005") == 10);
    EXPECT(raster_number(HEAD("1.0", "1", "1") "5") == 10 && raster_number(HEAD("-1", "1", "1") "5") == 10);
    EXPECT(raster_number(HEAD("2", "1", "1") "5") == 10 && raster_number(HEAD("1", "1", "1") "5 5") == 10);
    EXPECT(raster_number(HEAD("2", "2147483651", "1") "1 2 3 4 5 6") == 10);
    EXPECT(raster_number(HEAD("4294967296", "4294967296", "1")) == 10 && raster_number(HEAD("999999999999", "999999999999", "1") "5") == 10);
    EXPECT(raster_number(HEAD("1", "1", "1") "5\v") == 10);
    /* 1: sizes and sides */
    EXPECT(raster_number(HEAD("0", "7", "1")) == 1 && raster_number(HEAD("1", "1", "0.099999") "5") == 1);
    EXPECT(raster_number(HEAD("1", "1", "20.000001") "5") == 1 && raster_number(HEAD("1", "1", "-1") "5") == 1);
    /* 2: every other length */
    for (size_t words = 0; words <= FEW; words++) {
        EXPECT(raster_into(six, words, back).number == (words == 6 ? 0 : 2));
    }
    /* 3: heights, and the no-data value by its number */
    EXPECT(raster_number(HEAD("1", "1", "1") "50.000001") == 3 && raster_number(HEAD("1", "1", "1") "-50.000001") == 3);
    EXPECT(raster_number(HEAD("1", "1", "1") "4294.967296") == 3);
    EXPECT(raster_number(HEAD("2", "1", "1") "NODATA_value -9999 5 -9999.0") == 3);
    EXPECT(raster_number(HEAD("2", "1", "1") "NODATA_value 0 -0 5") == 3);
    /* each before the next */
    EXPECT(raster_into(HEAD("1", "1", "0") "51", 2, back).number == 1);
    EXPECT(raster_into(HEAD("1", "1", "1") "51", 2, back).number == 2);
    EXPECT(raster_into(HEAD("1", "1", "0") "51 x", 2, back).number == 10);
}

static void rasters_written(void) {
    static const WaterCard square = {3, 2, 500000, 500000, 100, 2};
    static const int32_t ground[6] = {0, -1, 1, -500000, 12345678, -50000000};
    static const char text[] = HEAD("3", "2", "0.500000") "-0.500000 12.345678 -50.000000\n0.000000 -0.000001 0.000001\n";
    enum { BYTES = sizeof text - 1, MORE = BYTES + 5 };
    char as_lent[MORE];
    memset(as_lent, '#', sizeof as_lent);
    for (size_t room = 0; room <= MORE; room++) {
        uint8_t *t = lend(as_lent, room);
        WaterWrote wrote = water_write_raster(square, LEND(ground), 6, t, room);
        size_t fits = room < BYTES ? 0 : BYTES;
        EXPECT(wrote.number == (fits ? 0 : 8) && wrote.size == fits);
        EXPECT(memcmp(t, text, fits) == 0 && memcmp(t + fits, as_lent, room - fits) == 0);
        hand_back();
    }
    int32_t back[FEW];
    WaterRaster raster = raster_into(text, asked_for(text), back);
    EXPECT(raster.number == 0 && raster.columns == 3 && raster.rows == 2 && raster.side == 500000 && SAME(back, ground));

    const WaterCard oblong = {3, 2, 500000, 500001, 100, 2}, no_time = {3, 2, 500000, 500000, 0, 2}, many = {3, 2, 500000, 500000, 100, 10001};
    int32_t high[6] = {0, 0, 0, 0, 0, 50000001};
    uint8_t *t = LEND(as_lent);
    EXPECT(water_write_raster(no_time, ground, 6, t, MORE).number == 1 && water_write_raster(many, ground, 6, t, MORE).number == 1);
    EXPECT(water_write_raster(oblong, ground, 6, t, MORE).number == 2 && water_write_raster(square, ground, 5, t, MORE).number == 2);
    WaterWrote wrote = water_write_raster(square, high, 6, t, MORE);
    EXPECT(wrote.number == 3 && wrote.size == 0 && SAME(t, as_lent));
    hand_back();
}

/* The largest raster, in just as much room as the header says, and read back by the sizes that stand in it. */
static void largest_raster(void) {
    enum { CELLS = 128 * 128 };
    static const WaterCard big = {128, 128, 20000000, 20000000, 1000, 10000};
    static int32_t ground[CELLS];
    static char room[WATER_RASTER_BYTES];
    for (int k = 0; k < CELLS; k++) {
        ground[k] = -50000000 + k;
    }
    const int32_t *g = LEND(ground);
    uint8_t *text = LEND(room);
    WaterWrote wrote = water_write_raster(big, g, CELLS, text, WATER_RASTER_BYTES);
    EXPECT(wrote.number == 0 && wrote.size == WATER_RASTER_BYTES);
    EXPECT(water_write_raster(big, g, CELLS, text, WATER_RASTER_BYTES - 1).number == 8);
    memset(ground, 0, sizeof ground);
    int32_t *back = LEND(ground);
    WaterRaster raster = water_read_raster(text, wrote.size, back, CELLS);
    EXPECT(raster.number == 0 && raster.columns == 128 && raster.rows == 128 && raster.side == 20000000);
    EXPECT(memcmp(back, g, sizeof ground) == 0);
    hand_back();
}

/* The largest site, stepped, run, searched, written and read back. */
static void largest(void) {
    enum { CELLS = 128 * 128, WORDS = 3 * CELLS + 256, BYTES = 19 + 4 * (CELLS + WORDS) };
    static const WaterCard big = {128, 128, 1000000, 1000000, 20, 5};
    static const WaterWindow all = {0, 0, 128e6, 128e6};
    static int32_t ground[CELLS], state[WORDS], after[WORDS];
    static WaterChamber chambers[1001];
    static uint32_t places[1000];
    static uint8_t room[BYTES];
    for (int k = 0; k < CELLS; k++) {
        ground[k] = k % 1000;
        state[k] = 1000000 + k;
    }
    for (int k = 0; k < 1001; k++) {
        chambers[k].x = 128000 * (int64_t)k;
        chambers[k].y = 1000 * (int64_t)k;
    }
    const int32_t *g = LEND(ground);
    int32_t *s = LEND(state);
    int32_t *n = LEND(after);
    uint8_t *bytes = LEND(room);
    const WaterChamber *c = LEND(chambers);
    uint32_t *found = LEND(places);
    EXPECT(step_by_both(big, g, CELLS, s, WORDS, n) == 0);
    EXPECT(volume(big, n) == volume(big, s));
    WaterPump pumps[64];
    for (int k = 0; k < 64; k++) {
        pumps[k].cell = CELLS - 1 - 255 * k;
        pumps[k].amount = k % 2 ? -2000 : 1000;
    }
    const int32_t *p = LEND(pumps);
    EXPECT(pumped_by_both(big, g, CELLS, s, WORDS, p, 128, n) == 0 && sum_of_heights(big, n) == sum_of_heights(big, s) - 32000);
    int32_t *pumped_state = LEND(state);
    WaterTally moved = water_run(big, g, CELLS, pumped_state, WORDS, p, 128, n, WORDS);
    EXPECT(moved.steps == 5 && moved.reason == 0 && moved.added == 160000 && moved.taken == 320000);
    EXPECT(sum_of_heights(big, pumped_state) == sum_of_heights(big, s) - 160000);
    WaterTally tally = water_run(big, g, CELLS, s, WORDS, NULL, 0, n, WORDS);
    EXPECT(volume(big, s) == volume(big, state) && volume(big, s) / 1000000 / 1000000 == (Volume)CELLS * 1000000 + (Volume)CELLS * (CELLS - 1) / 2);
    EXPECT(tally.steps == 5 && tally.reason == 0 && n[0] == 0 && n[WORDS - 1] == 0);
    WaterFound answer = water_search(big, g, CELLS, s, WORDS, c, 1000, all, 0, found, 1000);
    EXPECT(answer.number == 0 && answer.count == 1000 && found[999] == 999);
    EXPECT(water_search(big, g, CELLS, s, WORDS, c, 1001, all, 0, found, 1000).number == 2);
    EXPECT(water_search(big, g, CELLS, s, WORDS, c, 1000, all, 0, found, 999).number == 8);
    WaterWrote wrote = water_write_sheet(big, g, CELLS, s, WORDS, bytes, BYTES);
    EXPECT(wrote.number == 0 && wrote.size == BYTES);
    int32_t *back = LEND(ground);
    memset(back, 0, sizeof ground);
    EXPECT(water_read_sheet(bytes, BYTES, back, CELLS, n, WORDS).number == 0);
    EXPECT(memcmp(n, s, sizeof state) == 0 && SAME(back, ground));
    hand_back();
}

/* A length of 0 allows any pointer, and none at all. */
static void no_pointers(void) {
    static const WaterCard none = {0, 0, 0, 0, 0, 0};
    static const int32_t state[9] = {2000000, 1000000, 0, 0, 0, 0, 0, 0, 0};
    const WaterWindow all = {-1, -1, 3e6, 3e6};
    EXPECT(water_step(card, NULL, 0, NULL, 0, NULL, 0, NULL, 0) == 2);
    EXPECT(water_step_textbook(card, NULL, 0, NULL, 0, NULL, 0, NULL, 0) == 2);
    WaterTally tally = water_run(card, NULL, 0, NULL, 0, NULL, 0, NULL, 0);
    EXPECT(tally.steps == 0 && tally.reason == 2 && tally.top == 0 && tally.added == 0 && tally.taken == 0);
    WaterHeard heard = water_read_sheet(NULL, 0, NULL, 0, NULL, 0);
    EXPECT(heard.number == 9 && memcmp(&heard.card, &none, sizeof none) == 0);
    WaterWrote wrote = water_write_sheet(card, NULL, 0, NULL, 0, NULL, 0);
    EXPECT(wrote.number == 2 && wrote.size == 0);
    wrote = water_write_sheet(card, flat, 2, state, 9, NULL, 0);
    EXPECT(wrote.number == 8 && wrote.size == 0);
    WaterFound found = water_search(card, NULL, 0, NULL, 0, NULL, 0, all, 0, NULL, 0);
    EXPECT(found.number == 2 && found.count == 0);
    found = water_search(card, flat, 2, state, 9, NULL, 0, all, 0, NULL, 0);
    EXPECT(found.number == 0 && found.count == 0);
    found = water_search_lists(card, NULL, 0, NULL, 0, NULL, 0, NULL, 0, all, 0, NULL, 0);
    EXPECT(found.number == 2 && found.count == 0);
    found = water_search_lists(card, flat, 2, state, 9, NULL, 0, NULL, 0, all, 0, NULL, 0);
    EXPECT(found.number == 0 && found.count == 0);
    EXPECT(water_depth_text(5, NULL, 0) == 0);
    WaterRaster raster = water_read_raster(NULL, 0, NULL, 0);
    EXPECT(raster.number == 10 && raster.columns == 0 && raster.rows == 0 && raster.side == 0);
    wrote = water_write_raster(card, NULL, 0, NULL, 0);
    EXPECT(wrote.number == 2 && wrote.size == 0);
    wrote = water_write_raster(card, flat, 2, NULL, 0);
    EXPECT(wrote.number == 8 && wrote.size == 0);
}

int main(void) {
    for (fenced = 0; fenced <= 1; fenced++) {
        steps();
        refused_steps();
        dry_banks();
        passing_through();
        at_rest();
        run(1, 10000, 0);
        run(1, 10001, 1);
        run(129, 10000, 1);
        pumps_and_inlets();
        pumps_at_the_top();
        refused_pumps();
        pumped_run();
        searches(0);
        searches(1);
        sheet();
        texts();
        rasters_read();
        rasters_refused();
        rasters_written();
        largest_raster();
        largest();
    }
    no_pointers();
    staff_readings();
    no_staff_reading();
    refused_staff_readings();
    printf("numbers.c: %d facts hold, %d do not\n", passed, failed);
    return failed != 0;
}
