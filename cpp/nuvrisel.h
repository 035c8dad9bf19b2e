/* nuvrisel.h: the shift record in C's calling form, for C11 and C++17.
 *
 * The functions are those of crates/c_exports, proved: for any numbers and any areas each call ends, stays inside what
 * it is lent, and answers or refuses by a number; a refusal changes nothing that is lent but the three words in which
 * an answer is told, save that lanes which a join brought across before its refusal stay. docs/LAYOUT.md has the layout
 * of the areas, README.md the refusals.
 *
 * What the caller owes, because C can't say it (docs/DECISIONS.md, D169):
 *   - each area is there, whole and initialised, for the whole call; a null pointer only with a length of 0;
 *   - word areas (table, told, readings) are aligned to 4;
 *   - an area that is written overlaps no other area of the call, and nobody else writes any of them meanwhile;
 *   - no area is longer than PTRDIFF_MAX bytes.
 *
 * A store is four areas: the state (64 bytes), the table (32-bit words, two a bucket), the key pages and the list pages
 * (bytes). The same four go to every call, each of the length that it had at creation. Every call returns a code: 0, a
 * refusal's number, or one of the words below. A length in elements follows each pointer. */
#ifndef NUVRISEL_H
#define NUVRISEL_H
#include <stddef.h>
#include <stdint.h>
#ifdef __cplusplus
extern "C" {
#endif

/* Bytes of a state area, and words of the area in which an answer is told. */
#define NUVRISEL_STATE_BYTES 64
#define NUVRISEL_TOLD_WORDS 3

/* Codes. What isn't listed here is a number of document 01's or 02's table. */
#define NUVRISEL_DONE 0u
#define NUVRISEL_CREATION 1u     /* sizes that creation doesn't take */
#define NUVRISEL_STATE 2u        /* the state area is short or senseless, or doesn't fit what is lent */
#define NUVRISEL_LONG_NAME 3u    /* a name over the limit */
#define NUVRISEL_DAMAGE 4u       /* damaged memory was met */
#define NUVRISEL_TABLE_FULL 5u   /* a new name, and the table can't grow */
#define NUVRISEL_KEYS_FULL 6u    /* the record of a new name doesn't fit the key pages */
#define NUVRISEL_LISTS_FULL 7u   /* the blocks needed don't fit the list pages */
#define NUVRISEL_SHORT_OUTPUT 8u /* the output is too short; what is needed is told. Of a join: the scratch */
#define NUVRISEL_NO_END 11u      /* readings: a vint without an end; the readings before it are told */
#define NUVRISEL_OTHER_FORM 12u  /* readings: a vint not in its one form; the same is told */
#define NUVRISEL_NAMELESS 13u    /* an append to the empty name */
#define NUVRISEL_ABSENT 100u     /* no such lane */
#define NUVRISEL_NO_MORE 101u    /* listing: no occupied bucket from there on */
#define NUVRISEL_FAULT 102u      /* check: a faulty bucket (told) and its fault, 1 to 7 (beside) */
#define NUVRISEL_KEY_COUNT 103u  /* check: no bucket is faulty, but the key count differs */

/* What is told: a number of 64 bits in words 0 (low) and 1 (high), another in word 2. Always all three are written,
 * zeros where nothing is told; an area of fewer words is left as it is. */
static inline uint64_t nuvrisel_told(const uint32_t *told) { return (uint64_t)told[1] << 32 | told[0]; }

/* A fresh store of `capacity` buckets, rounded down to a power of two, over pages of `page_size` bytes. Refused: 1, 2
 * (a short state area). The first buckets of the table are written, the pages aren't touched. */
uint32_t nuvrisel_create(uint8_t *state, size_t state_bytes, size_t capacity, uint32_t seed, size_t page_size,
                         uint32_t *table, size_t words, const uint8_t *keys, size_t key_bytes, const uint8_t *lists,
                         size_t list_bytes);

/* Appends bytes to the lane of a name, which is entered if it isn't there. Refused: 2, 3, 13, 4, 5, 6, 7. */
uint32_t nuvrisel_append(uint8_t *state, size_t state_bytes, uint32_t *table, size_t words, uint8_t *keys,
                         size_t key_bytes, uint8_t *lists, size_t list_bytes, const uint8_t *name, size_t name_bytes,
                         const uint8_t *bytes, size_t bytes_length);

/* The place of a name's record in the key pages, told. Absent, or refused: 2, 3, 4. */
uint32_t nuvrisel_lookup(const uint8_t *state, size_t state_bytes, const uint32_t *table, size_t words,
                         const uint8_t *keys, size_t key_bytes, const uint8_t *lists, size_t list_bytes,
                         const uint8_t *name, size_t name_bytes, uint32_t *told, size_t told_words);

/* A lane's length, told. Absent, or refused: 2, 3, 4. */
uint32_t nuvrisel_length(const uint8_t *state, size_t state_bytes, const uint32_t *table, size_t words,
                         const uint8_t *keys, size_t key_bytes, const uint8_t *lists, size_t list_bytes,
                         const uint8_t *name, size_t name_bytes, uint32_t *told, size_t told_words);

/* A lane's bytes to the front of the output; their number is told, with 8 too. Absent, or refused: 2, 3, 4, 8. */
uint32_t nuvrisel_read(const uint8_t *state, size_t state_bytes, const uint32_t *table, size_t words,
                       const uint8_t *keys, size_t key_bytes, const uint8_t *lists, size_t list_bytes,
                       const uint8_t *name, size_t name_bytes, uint8_t *output, size_t output_bytes, uint32_t *told,
                       size_t told_words);

/* The next occupied bucket from `index` on, that one included: the bucket is told, its record's place beside it. The
 * record is the name's length (2 bytes, low byte first), the name, 16 bytes. No more, or refused: 2, 4. */
uint32_t nuvrisel_next(const uint8_t *state, size_t state_bytes, const uint32_t *table, size_t words,
                       const uint8_t *keys, size_t key_bytes, const uint8_t *lists, size_t list_bytes, size_t index,
                       uint32_t *told, size_t told_words);

/* The brownout check. `marks` has a bit for each byte of both arenas, (key bytes + list bytes + 7) / 8 bytes; all of it
 * is zero afterwards, except after a refusal. 0 is sound. A fault, the key count, or refused: 2, 8 (bytes needed). */
uint32_t nuvrisel_check(const uint8_t *state, size_t state_bytes, const uint32_t *table, size_t words,
                        const uint8_t *keys, size_t key_bytes, const uint8_t *lists, size_t list_bytes, uint8_t *marks,
                        size_t mark_bytes, uint32_t *told, size_t told_words);

/* The shift report as text to the front of the output; its length is told, with 8 too. Refused: 2, 4, 8. */
uint32_t nuvrisel_report(const uint8_t *state, size_t state_bytes, const uint32_t *table, size_t words,
                         const uint8_t *keys, size_t key_bytes, const uint8_t *lists, size_t list_bytes,
                         uint8_t *output, size_t output_bytes, uint32_t *told, size_t told_words);

/* Appends a reading to a lane of readings; `last` is the lane's last accepted one, 0 at first. Refused as an append. */
uint32_t nuvrisel_drift(uint8_t *state, size_t state_bytes, uint32_t *table, size_t words, uint8_t *keys,
                        size_t key_bytes, uint8_t *lists, size_t list_bytes, const uint8_t *name, size_t name_bytes,
                        int32_t last, int32_t reading);

/* A lane's readings to the front of the output; how many is told, with 8, 11 and 12 too. Absent, or refused: 2, 3, 4,
 * 8, 11, 12. */
uint32_t nuvrisel_readings(const uint8_t *state, size_t state_bytes, const uint32_t *table, size_t words,
                           const uint8_t *keys, size_t key_bytes, const uint8_t *lists, size_t list_bytes,
                           const uint8_t *name, size_t name_bytes, int32_t *output, size_t places, uint32_t *told,
                           size_t told_words);

/* Joins a second store, in four areas of its own, onto the first: each of its lanes, in listing order, is read to the
 * front of the scratch and appended to the first store under its name, until a refusal. How many lanes went across is
 * told, with a refusal too: these stay, and the first store's state area holds them; of the refused lane and those
 * behind it nothing has changed in the first store. The second store is only read. Refused: 2, 4 (of either store), 8
 * (the scratch is shorter than the next lane), 3, 13, 5, 6, 7. A second call begins with the first lane again, and
 * would append the lanes that went across once more. */
uint32_t nuvrisel_join(uint8_t *state, size_t state_bytes, uint32_t *table, size_t words, uint8_t *keys,
                       size_t key_bytes, uint8_t *lists, size_t list_bytes, const uint8_t *state2, size_t state2_bytes,
                       const uint32_t *table2, size_t words2, const uint8_t *keys2, size_t key2_bytes,
                       const uint8_t *lists2, size_t list2_bytes, uint8_t *scratch, size_t scratch_bytes,
                       uint32_t *told, size_t told_words);

#ifdef __cplusplus
}
#endif
#endif
