/* pins.h: what a host links to keep the pins of two crews. Document 02, [13], says what each call does, and so do the definitions in
 * crates/pins_rules/specs, which stand in the repository; this page says how C reaches it. The archive is libpins.a, made by
 * `./archives pins`. It needs no other, and goes into one program with libwater.a.
 *
 * Two crews, 1 and 2, put pins on chambers of one register, 0 to 999, in one shared table of 64 places. A crew can add, remove and list its
 * own pins. Both may have a pin on the same chamber; each may have 32 pins at most.
 *
 * Table: a list of 64 words that the host keeps and lends, one for each place. A word is 0 where the place is free, and PINS_CREW*crew +
 * chamber where it has a pin. 64 zeros are an empty table, and that is how a host starts one. An add takes the lowest free place, and a
 * removed pin's place is 0 again and serves again.
 *
 * What a crew may rely on, from an empty table on: its answers depend on its own calls only, whatever the other crew does in between (no
 * answer shows a place or a count that both share; the table itself does, and is the host's to keep); an add that leaves the crew with 32
 * pins or fewer always finds a place; and a table that nothing but these calls has changed is never refused with 3.
 *
 * Every call takes any input at all: any length, any word, any crew, any chamber. Nothing is required of the caller but that each pointer
 * reaches as many words as the length behind it says (a length of 0 allows any pointer, NULL too), and that a listing's two lists do not
 * overlap. No call keeps state, allocates or fails in another way than by its number.
 *
 * Threads: calls on different tables may be made at the same time, and so may listings of one table, into different lists. A table is only
 * as shared as the host makes it: an add or a remove beside any other call on the same table is the host's to keep apart, by a lock for one.
 *
 * Numbers, looked for in this order; the first that applies is given:
 *      0  done
 *      2  a list has another length: the table not 64 words, or a listing's list not 32
 *      3  a bad table: a word that is neither 0 nor a pin of crew 1 or 2 on a chamber below 1,000, the same pin twice, or over 32 pins of
 *         one crew. The whole table is looked at, the other crew's pins too
 *     11  an unknown crew: neither 1 nor 2
 *     12  a chamber of 1,000 or above
 *     13  adding: this crew has that pin already; removing: this crew has no such pin (the other crew's does not count)
 *     14  adding: this crew has 32 pins
 * Where a call is refused, every list is as lent, and a listing's count is 0.
 *
 * Stack that a call takes, in bytes, where the archive is rt's for x86-64. A thread takes some for itself besides, and so does a loader
 * that binds memcpy and memset only when they are first called.
 *
 *                      any input
 *     pins_add             2,000
 *     pins_remove          2,000
 *     pins_list            2,000
 */
#ifndef PINS_H
#define PINS_H

#include <stddef.h>
#include <stdint.h>

/* Another number says: compile anew what was compiled with an older header. A call that is only added leaves the number as it is. */
#define PINS_VERSION 1

#ifdef __cplusplus
extern "C" {
#endif

/* How many places a table has, how many pins each crew may have, how many chambers there are, and what a word has for
 * each crew: a pin is PINS_CREW*crew + chamber. */
enum { PINS_PLACES = 64, PINS_EACH = 32, PINS_CHAMBERS = 1000, PINS_CREW = 65536 };

/* What a listing answers: its number, and how many chambers stand at the front of the list, 0 if refused. */
typedef struct {
    uint32_t number, count;
} PinsListing;

/* Puts crew's pin on chamber into the lowest free place.
 * Refused with 2, 3, 11, 12, 13 (it has that pin already) or 14 (it has 32): table is as lent. */
uint32_t pins_add(uint32_t *table, size_t table_length, uint32_t crew, uint32_t chamber);

/* Takes crew's pin off chamber: its place is 0 again.
 * Refused with 2, 3, 11, 12 or 13 (it has no such pin): table is as lent. */
uint32_t pins_remove(uint32_t *table, size_t table_length, uint32_t crew, uint32_t chamber);

/* The chambers that crew has pinned, rising, which is register order: count of them stand at the front of found, a list of 32, and the rest
 * is as lent.
 * Refused with 2, 3 or 11: count is 0, found is as lent. */
PinsListing pins_list(const uint32_t *table, size_t table_length, uint32_t crew, uint32_t *found, size_t found_length);

#ifdef __cplusplus
}
#endif

#endif
