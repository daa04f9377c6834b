/* The pin table from C, with include/pins.h as a host would use it: numbers by hand, every refusal, and a random history beside two sets. Each
 * list is lent twice over: from the heap at its exact size, for valgrind to watch, and from pages of its own with its end against a fence,
 * which stops the program at the first byte read or written beyond it. */
#define _DEFAULT_SOURCE
#include "pins.h"

#include <stdio.h>
#include <stdlib.h>
#include <string.h>
#include <sys/mman.h>

/* ---- what the header promises; tests/pins/layout.rs holds Rust's to the same */

_Static_assert(PINS_VERSION == 1, "version");
_Static_assert(PINS_PLACES == 64 && PINS_EACH == 32 && PINS_CHAMBERS == 1000 && PINS_CREW == 65536, "numbers");
_Static_assert(sizeof(PinsListing) == 8, "PinsListing");
_Static_assert(offsetof(PinsListing, number) == 0, "PinsListing.number");
_Static_assert(offsetof(PinsListing, count) == 4, "PinsListing.count");

/* ---- counting */

static int passed, failed;

#define EXPECT(fact)                                                      \
    do {                                                                  \
        if (fact) {                                                       \
            passed++;                                                     \
        } else {                                                          \
            failed++;                                                     \
            printf("%s:%d: not so: %s\n", __FILE__, __LINE__, #fact);     \
        }                                                                 \
    } while (0)

/* ---- lending */

enum { PAGE = 65536 };

static int fenced;

/* A copy of so many words. It is handed back by the same length. */
static uint32_t *lend(const uint32_t *content, size_t length) {
    size_t bytes = length * sizeof *content;
    char *list;
    if (fenced) {
        char *start = mmap(NULL, 2 * PAGE, PROT_READ | PROT_WRITE, MAP_PRIVATE | MAP_ANONYMOUS, -1, 0);
        if (bytes > PAGE || start == MAP_FAILED || mprotect(start + PAGE, PAGE, PROT_NONE) != 0) {
            abort();
        }
        list = start + PAGE - bytes;
    } else {
        list = malloc(bytes ? bytes : 1);
        if (list == NULL) {
            abort();
        }
    }
    if (bytes > 0) {
        memcpy(list, content, bytes);
    }
    return (uint32_t *)list;
}

static void hand_back(uint32_t *list, size_t length) {
    if (fenced) {
        munmap((char *)list + length * sizeof *list - PAGE, 2 * PAGE);
    } else {
        free(list);
    }
}

/* ---- the calls on lent copies; what a refused one was lent is as it was */

static uint32_t change(uint32_t (*call)(uint32_t *, size_t, uint32_t, uint32_t), uint32_t *table, size_t length, uint32_t crew,
                       uint32_t chamber) {
    uint32_t *lent = lend(table, length);
    uint32_t number = call(lent, length, crew, chamber);
    EXPECT(number == 0 || length == 0 || memcmp(lent, table, length * sizeof *table) == 0);
    if (length > 0) {
        memcpy(table, lent, length * sizeof *table);
    }
    hand_back(lent, length);
    return number;
}

static uint32_t add(uint32_t *table, uint32_t crew, uint32_t chamber) {
    return change(pins_add, table, PINS_PLACES, crew, chamber);
}

static uint32_t take(uint32_t *table, uint32_t crew, uint32_t chamber) {
    return change(pins_remove, table, PINS_PLACES, crew, chamber);
}

/* A listing into a list of so many words: only its front is written, and nothing where it is refused. */
static PinsListing listed(const uint32_t *table, size_t length, uint32_t crew, uint32_t *found, size_t room) {
    uint32_t *t = lend(table, length), *f = lend(found, room);
    PinsListing listing = pins_list(t, length, crew, f, room);
    EXPECT(length == 0 || memcmp(t, table, length * sizeof *table) == 0);
    EXPECT(listing.number == 0 ? listing.count <= room : listing.count == 0);
    for (size_t k = listing.count; k < room; k++) {
        EXPECT(f[k] == found[k]);
    }
    if (room > 0) {
        memcpy(found, f, room * sizeof *found);
    }
    hand_back(t, length);
    hand_back(f, room);
    return listing;
}

/* A crew lists exactly these. */
static int lists(const uint32_t *table, uint32_t crew, const uint32_t *chambers, uint32_t count) {
    uint32_t found[PINS_EACH];
    for (uint32_t k = 0; k < PINS_EACH; k++) {
        found[k] = 70000 + k;
    }
    PinsListing listing = listed(table, PINS_PLACES, crew, found, PINS_EACH);
    return listing.number == 0 && listing.count == count && memcmp(found, chambers, count * sizeof *found) == 0;
}

#define PIN(crew, chamber) ((uint32_t)PINS_CREW * (crew) + (chamber))

/* ---- numbers by hand */

static void two_crews(void) {
    static const uint32_t ones[] = {12, 907}, twos[] = {12}, last[] = {12, 999};
    uint32_t table[PINS_PLACES] = {0};
    EXPECT(lists(table, 1, ones, 0) && lists(table, 2, ones, 0));
    EXPECT(add(table, 1, 907) == 0 && add(table, 2, 12) == 0 && add(table, 1, 12) == 0);
    EXPECT(table[0] == PIN(1, 907) && table[1] == PIN(2, 12) && table[2] == PIN(1, 12) && table[3] == 0);
    EXPECT(table[0] == 66443 && table[1] == 131084);
    EXPECT(lists(table, 1, ones, 2) && lists(table, 2, twos, 1));
    EXPECT(take(table, 2, 907) == 13 && take(table, 1, 907) == 0 && take(table, 1, 907) == 13);
    EXPECT(table[0] == 0 && table[1] == PIN(2, 12) && table[2] == PIN(1, 12));
    EXPECT(add(table, 2, 0) == 0 && table[0] == PIN(2, 0));
    EXPECT(add(table, 1, 999) == 0 && table[3] == PIN(1, 999));
    EXPECT(lists(table, 1, last, 2) && add(table, 2, 12) == 13);
}

static void full_crews(void) {
    uint32_t table[PINS_PLACES] = {0}, rising[PINS_EACH];
    for (uint32_t k = 0; k < PINS_EACH; k++) {
        rising[k] = 900 + k;
        EXPECT(add(table, 1, 931 - k) == 0);
    }
    EXPECT(add(table, 1, 5) == 14 && add(table, 1, 931) == 13);
    for (uint32_t k = 0; k < PINS_EACH; k++) {
        EXPECT(add(table, 2, 931 - k) == 0);
    }
    EXPECT(table[63] == PIN(2, 900) && add(table, 1, 5) == 14 && add(table, 2, 5) == 14);
    EXPECT(lists(table, 1, rising, 32) && lists(table, 2, rising, 32));
    EXPECT(take(table, 2, 900) == 0 && add(table, 1, 5) == 14 && add(table, 2, 932) == 0 && table[63] == PIN(2, 932));
}

/* ---- refusals */

static int refused(const uint32_t *table, size_t length, uint32_t crew, uint32_t chamber, uint32_t number) {
    uint32_t copy[PINS_PLACES + 1] = {0}, found[PINS_EACH] = {1, 2, 3};
    memcpy(copy, table, length * sizeof *table);
    int right = change(pins_add, copy, length, crew, chamber) == number && change(pins_remove, copy, length, crew, chamber) == number;
    /* a listing asks for no chamber */
    return right && listed(table, length, crew, found, PINS_EACH).number == (number == 12 ? 0 : number);
}

static void refusals(void) {
    static const uint32_t bad[] = {5, 65535, 66536, 132072, 196608, 196609, 0x80000000, UINT32_MAX};
    static const uint32_t crews[] = {0, 3, 257, 65537, 0x80000001, UINT32_MAX};
    static const uint32_t chambers[] = {1000, 65535, 65536, 65543, UINT32_MAX};
    uint32_t table[PINS_PLACES + 1] = {PIN(1, 7), PIN(2, 7)}, found[PINS_EACH + 1] = {0};
    for (size_t length = 0; length <= PINS_PLACES + 1; length++) {
        EXPECT(length == PINS_PLACES || refused(table, length, 1, 8, 2));
    }
    for (size_t room = 0; room <= PINS_EACH + 1; room++) {
        EXPECT(listed(table, PINS_PLACES, 1, found, room).number == (room == PINS_EACH ? 0 : 2));
    }
    for (int place = 0; place < PINS_PLACES; place++) {
        uint32_t word = table[place];
        for (size_t k = 0; k < sizeof bad / sizeof *bad; k++) {
            table[place] = bad[k];
            EXPECT(refused(table, PINS_PLACES, 1, 8, 3));
        }
        table[place] = table[place == 1 ? 0 : 1];
        EXPECT(refused(table, PINS_PLACES, 1, 8, 3));
        /* in this order: a length, the table, the crew, the chamber */
        EXPECT(refused(table, PINS_PLACES, 3, 1000, 3) && refused(table, PINS_PLACES + 1, 3, 1000, 2));
        table[place] = word;
    }
    for (size_t k = 0; k < sizeof crews / sizeof *crews; k++) {
        EXPECT(refused(table, PINS_PLACES, crews[k], 7, 11) && refused(table, PINS_PLACES, crews[k], 1000, 11));
    }
    for (size_t k = 0; k < sizeof chambers / sizeof *chambers; k++) {
        EXPECT(refused(table, PINS_PLACES, 1, chambers[k], 12) && refused(table, PINS_PLACES, 2, chambers[k], 12));
    }
    EXPECT(add(table, 1, 7) == 13 && take(table, 1, 8) == 13);
}

/* 33 pins of a crew are too many, whoever asks. */
static void too_many(void) {
    for (uint32_t crew = 1; crew <= 2; crew++) {
        uint32_t table[PINS_PLACES] = {0}, other = 3 - crew;
        for (uint32_t k = 0; k < 32; k++) {
            table[63 - k] = PIN(crew, k);
        }
        EXPECT(add(table, crew, 500) == 14 && add(table, other, 500) == 0 && take(table, other, 500) == 0);
        table[0] = PIN(crew, 32);
        EXPECT(refused(table, PINS_PLACES, other, 500, 3) && refused(table, PINS_PLACES, crew, 0, 3));
    }
}

/* A length of 0 allows any pointer, and none at all. */
static void no_pointers(void) {
    static const uint32_t table[PINS_PLACES] = {0};
    uint32_t found[PINS_EACH] = {7};
    EXPECT(pins_add(NULL, 0, 1, 5) == 2 && pins_remove(NULL, 0, 1, 5) == 2);
    PinsListing listing = pins_list(NULL, 0, 1, NULL, 0);
    EXPECT(listing.number == 2 && listing.count == 0);
    listing = pins_list(table, PINS_PLACES, 1, NULL, 0);
    EXPECT(listing.number == 2 && listing.count == 0);
    listing = pins_list(NULL, 0, 1, found, PINS_EACH);
    EXPECT(listing.number == 2 && listing.count == 0 && found[0] == 7);
}

/* ---- a random history beside two sets of chambers */

static uint64_t state = 20;

static uint32_t below(uint32_t n) {
    state = state * 6364136223846793005u + 1442695040888963407u;
    return (uint32_t)(state >> 33) % n;
}

static unsigned char has[3][PINS_CHAMBERS];
static uint32_t held[3];

static uint32_t expected(int adding, uint32_t crew, uint32_t chamber) {
    if (crew != 1 && crew != 2) {
        return 11;
    }
    if (chamber >= PINS_CHAMBERS) {
        return 12;
    }
    if (has[crew][chamber] == adding) {
        return 13;
    }
    return adding && held[crew] == PINS_EACH ? 14 : 0;
}

/* The one word that a done call changes: the first that is so. */
static size_t first(const uint32_t *table, uint32_t word) {
    size_t place = 0;
    while (place < PINS_PLACES && table[place] != word) {
        place++;
    }
    return place;
}

static void history(int calls) {
    uint32_t table[PINS_PLACES] = {0}, after[PINS_PLACES], chambers[PINS_EACH];
    int given[15] = {0};
    memset(has, 0, sizeof has);
    memset(held, 0, sizeof held);
    for (int call = 0; call < calls; call++) {
        int adding = below(100) < (call / 300 % 2 ? 30 : 85);
        uint32_t crew = below(30) ? 1 + below(2) : 3 * below(2), chamber = below(40) ? 17 * below(58) : 1000 + below(70000);
        uint32_t number = expected(adding, crew, chamber);
        memcpy(after, table, sizeof table);
        if (number == 0) {
            after[first(table, adding ? 0 : PIN(crew, chamber))] = adding ? PIN(crew, chamber) : 0;
            has[crew][chamber] = (unsigned char)adding;
            held[crew] += adding ? 1 : UINT32_MAX;
        }
        EXPECT((adding ? add(table, crew, chamber) : take(table, crew, chamber)) == number);
        EXPECT(memcmp(table, after, sizeof table) == 0);
        given[number]++;
        crew = 1 + below(2);
        uint32_t count = 0;
        for (chamber = 0; chamber < PINS_CHAMBERS; chamber++) {
            if (has[crew][chamber]) {
                chambers[count++] = chamber;
            }
        }
        EXPECT(lists(table, crew, chambers, count));
    }
    EXPECT(given[0] > calls / 20 && given[11] > calls / 100 && given[12] > calls / 100 && given[13] > calls / 20 && given[14] > calls / 100);
}

int main(void) {
    for (fenced = 0; fenced <= 1; fenced++) {
        two_crews();
        full_crews();
        refusals();
        too_many();
        history(4000);
    }
    no_pointers();
    printf("pins.c: %d facts hold, %d do not\n", passed, failed);
    return failed != 0;
}
