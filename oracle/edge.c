/* edge.c: the store and the bare arena at their limits, run for each page size.
 *
 * Arenas of 2^32 - s bytes, which are 2^32 / s - 1 pages of s bytes, are reserved and hardly touched; the calls are the
 * proved ones of crates/edge. Each expected answer stands beside its call, worked out by hand from docs/RULES.md. The
 * first wrong one ends the run with status 1, memory that can't be reserved with 77; else the last line is
 * 'edge: N checks'. oracle/edge builds and runs it; docs/EDGE.md says what it shows. */
#define _DEFAULT_SOURCE
#include <stdbool.h>
#include <stdint.h>
#include <stdio.h>
#include <stdlib.h>
#include <string.h>
#include <sys/mman.h>
#include <sys/resource.h>

/* crates/edge/src/lib.rt: a slice is a pointer and its number of elements */
#define STATE \
    uint32_t seed, size_t words, size_t key_bytes, size_t list_bytes, size_t buckets, bool back, size_t count, \
        size_t key_page, size_t key_used, size_t list_page, size_t list_used, size_t size
void edge_create(size_t capacity, uint32_t seed, size_t size, uint32_t *table, size_t words, const uint8_t *keys,
                 size_t key_bytes, const uint8_t *lists, size_t list_bytes, uint64_t *told, size_t told_words);
void edge_append(STATE, uint32_t *table, size_t t, uint8_t *keys, size_t k, uint8_t *lists, size_t l,
                 const uint8_t *name, size_t n, const uint8_t *bytes, size_t b, uint64_t *told, size_t told_words);
void edge_length(STATE, const uint32_t *table, size_t t, const uint8_t *keys, size_t k, const uint8_t *lists, size_t l,
                 const uint8_t *name, size_t n, uint64_t *told, size_t told_words);
void edge_read(STATE, const uint32_t *table, size_t t, const uint8_t *keys, size_t k, const uint8_t *lists, size_t l,
               const uint8_t *name, size_t n, uint8_t *output, size_t room, uint64_t *told, size_t told_words);
void edge_allocate(size_t page, size_t used, size_t size, size_t len, size_t n, uint64_t *told, size_t told_words);
uint64_t edge_get(size_t page, size_t used, size_t size, const uint8_t *pages, size_t len, uint32_t at, uint8_t *output,
                  size_t n);
uint64_t edge_put(size_t page, size_t used, size_t size, uint8_t *pages, size_t len, uint32_t at, const uint8_t *bytes,
                  size_t n);

#define WORDS ((size_t)8388608)   /* the longest table (A4) */
#define NULL_ADDRESS 4294967295u  /* A7 */
enum { ABSENT = 100, NO_ROOM = 101 }; /* crates/edge/specs/Told.antt */

/* The numbers of one page size. For 1,048,576: 4,293,918,720 bytes, last page 4,094, whose front is 4,292,870,144. */
static size_t S;        /* a page (A2) */
static size_t ARENA;    /* the longest arena: 2^32 / s - 1 pages (A3) */
static size_t LAST;     /* its last page */
static uint64_t FRONT;  /* place 0 of the last page (F1) */
static size_t NAME_MOST; /* the longest name (A5) */

static void set_size(size_t size) {
    S = size, ARENA = ((size_t)1 << 32) - size, LAST = ((size_t)1 << 32) / size - 2, FRONT = LAST * size;
    NAME_MOST = size == 65536 ? 65518 : 65535;
}

static uint32_t *table;
static uint8_t *keys, *lists, *data, *output;
static uint64_t told[13];
static unsigned checks;

static void same(const char *what, int line, uint64_t got, uint64_t expected) {
    checks++;
    if (got == expected) return;
    printf("edge: line %d, pages of %zu bytes: %s is %llu and should be %llu\n", line, S, what,
           (unsigned long long)got, (unsigned long long)expected);
    exit(1);
}
#define IS(got, expected) same(#got, __LINE__, (uint64_t)(got), (uint64_t)(expected))

/* ---- memory */

/* So many bytes whose end lies before a page that can't be touched. */
static void *reserved(size_t n) {
    uint8_t *at = mmap(NULL, n + 4096, PROT_READ | PROT_WRITE, MAP_PRIVATE | MAP_ANONYMOUS | MAP_NORESERVE, -1, 0);
    if (at == MAP_FAILED || mprotect(at + n, 4096, PROT_NONE)) {
        printf("edge: not run: the memory can't be reserved\n");
        exit(77);
    }
    return at;
}

/* The page behind an arena, there for a call that lends one byte more. */
static void one_more(uint8_t *area, bool there) {
    if (mprotect(area + ARENA, 4096, there ? PROT_READ | PROT_WRITE : PROT_NONE)) exit(1);
}

static uint64_t number_at(const uint8_t *at, int bytes) {
    uint64_t n = 0;
    for (int i = bytes; i-- > 0;) n = n << 8 | at[i];
    return n;
}

/* ---- the store's calls */

typedef struct {
    uint32_t seed;
    size_t words, key_bytes, list_bytes, buckets;
    bool back;
    size_t count, key_page, key_used, list_page, list_used, size;
} State;
#define FIELDS(s) \
    (s).seed, (s).words, (s).key_bytes, (s).list_bytes, (s).buckets, (s).back, (s).count, (s).key_page, (s).key_used, \
        (s).list_page, (s).list_used, (s).size
#define NAME(name) (const uint8_t *)(name), strlen(name)

static State told_state(void) {
    State s = {told[1], told[2], told[3], told[4],  told[5],  told[6],
               told[7], told[8], told[9], told[10], told[11], told[12]};
    return s;
}
static uint64_t create_of(size_t size, size_t capacity, size_t words, size_t k, size_t l) {
    memset(told, 0xee, sizeof told);
    edge_create(capacity, 7, size, table, words, keys, k, lists, l, told, 13);
    return told[0];
}
static uint64_t create(size_t capacity, size_t words, size_t k, size_t l) {
    return create_of(S, capacity, words, k, l);
}
/* lent as the state remembers it, unless said otherwise */
static uint64_t append_lent(State s, size_t t, size_t k, size_t l, const char *name, const uint8_t *bytes, size_t n) {
    edge_append(FIELDS(s), table, t, keys, k, lists, l, NAME(name), bytes, n, told, 13);
    return told[0];
}
static uint64_t append(State s, const char *name, const uint8_t *bytes, size_t n) {
    return append_lent(s, s.words, s.key_bytes, s.list_bytes, name, bytes, n);
}
static uint64_t length(State s, const char *name) {
    edge_length(FIELDS(s), table, s.words, keys, s.key_bytes, lists, s.list_bytes, NAME(name), told, 13);
    return told[0];
}
static uint64_t reading(State s, const char *name, size_t room) {
    edge_read(FIELDS(s), table, s.words, keys, s.key_bytes, lists, s.list_bytes, NAME(name), output, room, told, 13);
    return told[0];
}
/* A store of 8 buckets over the longest arenas, led to a page and a used count of each. */
static State at(size_t key_page, size_t key_used, size_t list_page, size_t list_used) {
    IS(create(8, 16, ARENA, ARENA), 0);
    State s = told_state();
    s.key_page = key_page, s.key_used = key_used, s.list_page = list_page, s.list_used = list_used;
    return s;
}
static void header_is(int line, uint64_t record, size_t name, uint64_t num, uint64_t head, uint64_t tail,
                      uint64_t rem) {
    const uint8_t *h = keys + record + 2 + name; /* R1, M4 */
    same("num", line, number_at(h, 4), num);
    same("head", line, number_at(h + 4, 4), head);
    same("tail", line, number_at(h + 8, 4), tail);
    same("rem and end bytes", line, number_at(h + 12, 4), rem);
}
#define HEADER(record, name, num, head, tail, rem) header_is(__LINE__, record, name, num, head, tail, rem)

/* A refused append. It must leave the state as it was, and the table's first 16 words and, of both arenas, the last
 * 64 bytes and the front of the last page. */
static void refused(int line, State s, size_t t, size_t k, size_t l, const char *name, size_t n, uint64_t number) {
    static uint8_t before[4][64], words[64];
    const uint8_t *spot[4] = {keys + FRONT, keys + ARENA - 64, lists + FRONT, lists + ARENA - 64};
    for (int i = 0; i < 4; i++) memcpy(before[i], spot[i], 64);
    memcpy(words, table, 64);
    same("append", line, append_lent(s, t, k, l, name, data, n), number);
    uint64_t was[] = {s.seed,  s.words,    s.key_bytes, s.list_bytes, s.buckets,   s.back,
                      s.count, s.key_page, s.key_used,  s.list_page,  s.list_used, s.size};
    same("the state differs", line, memcmp(told + 1, was, sizeof was) != 0, 0);
    for (int i = 0; i < 4; i++) same("bytes differ", line, memcmp(before[i], spot[i], 64) != 0, 0);
    same("words differ", line, memcmp(words, table, 64) != 0, 0);
}
#define REFUSED(s, name, n, number) refused(__LINE__, s, (s).words, (s).key_bytes, (s).list_bytes, name, n, number)

/* ---- creation (C1 to C4) */

static void refused_creation(int line, size_t size, size_t capacity, size_t words, size_t k, size_t l) {
    for (int i = 0; i < 16; i++) table[i] = 0x33333333;
    same("create", line, create_of(size, capacity, words, k, l), 1);
    for (int i = 0; i < 16; i++) same("a word of the table", line, table[i], 0x33333333);
    same("a word behind the answer", line, told[4], 0xeeeeeeeeeeeeeeee);
}
#define NO_STORE_OF(size) refused_creation(__LINE__, size, 4, 24, ARENA, ARENA)
#define NO_STORE(capacity, words, k, l) refused_creation(__LINE__, S, capacity, words, k, l)

static void creation(void) {
    /* the longest arenas; buckets 0 to 3 become (null, 0), the word behind them stays */
    table[8] = 0x33333333;
    IS(create(7, 24, ARENA, ARENA), 0);
    for (int i = 0; i < 8; i++) IS(table[i], i % 2 ? 0 : NULL_ADDRESS);
    IS(table[8], 0x33333333);
    State s = told_state();
    IS(s.seed, 7), IS(s.words, 24), IS(s.key_bytes, ARENA), IS(s.list_bytes, ARENA), IS(s.buckets, 4), IS(s.back, 0);
    IS(s.count, 0), IS(s.key_page, 0), IS(s.key_used, 0), IS(s.list_page, 0), IS(s.list_used, 0), IS(s.size, S);
    /* a page size that isn't taken */
    NO_STORE_OF(0);
    NO_STORE_OF(1);
    NO_STORE_OF(32768);
    NO_STORE_OF(S - 1);
    NO_STORE_OF(S + 1);
    NO_STORE_OF(S + 65536 / 2);
    NO_STORE_OF(2097152);
    NO_STORE_OF(SIZE_MAX);
    /* one byte more than 2^32 / s - 1 pages; a page more is more too, and only a number: nothing of it is touched */
    one_more(keys, true), one_more(lists, true);
    NO_STORE(4, 24, ARENA + 1, ARENA);
    NO_STORE(4, 24, ARENA, ARENA + 1);
    one_more(keys, false), one_more(lists, false);
    NO_STORE(4, 24, 0, ARENA);
    NO_STORE(4, 24, ARENA, 0);
    IS(create(4, 24, 1, 1), 0);
    IS(create(4, 24, ARENA - 1, ARENA - 1), 0);
    /* the longest table takes a capacity that is rounded down to at most its 4,194,304 buckets */
    IS(create(4194304, WORDS, ARENA, ARENA), 0);
    IS(told_state().buckets, 4194304);
    IS(table[WORDS - 2], NULL_ADDRESS), IS(table[WORDS - 1], 0);
    IS(create(8388607, WORDS, ARENA, ARENA), 0);
    IS(told_state().buckets, 4194304);
    NO_STORE(8388608, WORDS, ARENA, ARENA);
    NO_STORE((size_t)1 << 31, WORDS, ARENA, ARENA);
    NO_STORE((size_t)1 << 63, WORDS, ARENA, ARENA);
    NO_STORE(SIZE_MAX, WORDS, ARENA, ARENA);
    NO_STORE(0, WORDS, ARENA, ARENA);
    /* words: too many; odd and too many; odd; none */
    NO_STORE(1, WORDS + 2, ARENA, ARENA);
    NO_STORE(1, WORDS + 1, ARENA, ARENA);
    NO_STORE(1, WORDS - 1, ARENA, ARENA);
    NO_STORE(1, 0, ARENA, ARENA);
}

/* ---- list pages: blocks at the end of the last page */

static void blocks(void) {
    /* place 0 of the last page: the record there in the key pages, a block of 12 in the list pages */
    State s = at(LAST, 0, LAST, 0);
    IS(append(s, "A", data, 8), 0);
    s = told_state();
    IS(s.count, 1), IS(s.key_page, LAST), IS(s.key_used, 19), IS(s.list_page, LAST), IS(s.list_used, 12);
    HEADER(FRONT, 1, 3, FRONT, FRONT + 8, 0);
    /* the ninth byte takes block 4, of 20, at place 12, and the link at place 8 receives its address */
    IS(append(s, "A", data + 8, 1), 0);
    s = told_state();
    IS(s.list_used, 32);
    IS(number_at(lists + FRONT + 8, 4), FRONT + 12);
    HEADER(FRONT, 1, 4, FRONT, FRONT + 13, 15);
    IS(length(s, "A"), 0), IS(told[1], 9);
    IS(reading(s, "A", 16), 0), IS(told[1], 9), IS(memcmp(output, data, 9), 0);
    IS(reading(s, "A", 8), 8), IS(told[1], 9);
    IS(reading(s, "B", 16), ABSENT);

    /* 12 bytes left: a block uses up the arena; its eight bytes fill, a ninth would need one page more */
    s = at(LAST, 0, LAST, S - 12);
    IS(append(s, "B", data, 1), 0);
    s = told_state();
    IS(s.list_page, LAST), IS(s.list_used, S);
    HEADER(FRONT, 1, 3, ARENA - 12, ARENA - 11, 7);
    IS(append(s, "B", data + 1, 7), 0);
    s = told_state();
    HEADER(FRONT, 1, 3, ARENA - 12, ARENA - 4, 0);
    IS(memcmp(lists + ARENA - 12, data, 8), 0);
    IS(length(s, "B"), 0), IS(told[1], 8);
    IS(reading(s, "B", 8), 0), IS(told[1], 8), IS(memcmp(output, data, 8), 0);
    REFUSED(s, "B", 1, 7);
    REFUSED(s, "C", 1, 7);
    IS(append(s, "C", data, 0), 0); /* an empty append takes no block */

    /* 11 bytes left, none left: 7. On the page before the last the block goes on to the last */
    REFUSED(at(LAST, 0, LAST, S - 11), "B", 1, 7);
    REFUSED(at(LAST, 0, LAST, S), "B", 1, 7);
    s = at(LAST, 0, LAST - 1, S - 11);
    IS(append(s, "B", data, 1), 0);
    s = told_state();
    IS(s.list_page, LAST), IS(s.list_used, 12);
    HEADER(FRONT, 1, 3, FRONT, FRONT + 1, 7);

    /* The last two pages, from empty. The first holds blocks 3 to 14 (32,760 bytes in 32,808) and then as many of
     * 32,772 as fit; the last as many of these. With s = 65,536: none, and one; with 1,048,576: thirty, and thirty-one,
     * in all 32,760 + 61 x 32,768 = 2,031,608 bytes of a lane. One byte more would need a page more. */
    size_t first = (S - 32808) / 32772, last = S / 32772, all = 32760 + (first + last) * 32768;
    s = at(LAST, 0, LAST - 1, 0);
    REFUSED(s, "A", all + 1, 7);
    IS(append(s, "A", data, all), 0);
    s = told_state();
    IS(s.list_page, LAST), IS(s.list_used, last * 32772);
    HEADER(FRONT, 1, 14 + first + last, FRONT - S, FRONT + (last - 1) * 32772 + 32768, 0);
    IS(length(s, "A"), 0), IS(told[1], all);
    IS(reading(s, "A", all), 0), IS(told[1], all), IS(memcmp(output, data, all), 0);
    IS(reading(s, "A", all - 1), 8), IS(told[1], all);
    REFUSED(s, "A", 1, 7);
}

/* ---- key pages: records at the end of the last page */

static void records(void) {
    /* 19 bytes left: the record of "A" ends with the arena; the next name's doesn't fit */
    State s = at(LAST, S - 19, LAST, 0);
    IS(append(s, "A", data, 3), 0);
    s = told_state();
    IS(s.key_page, LAST), IS(s.key_used, S);
    IS(number_at(keys + ARENA - 19, 2), 1), IS(keys[ARENA - 17], 'A');
    HEADER(ARENA - 19, 1, 3, FRONT, FRONT + 3, 5);
    int found = 0;
    for (int i = 0; i < 16; i += 2) found += table[i] == ARENA - 19;
    IS(found, 1);
    IS(reading(s, "A", 3), 0), IS(told[1], 3), IS(memcmp(output, data, 3), 0);
    REFUSED(s, "B", 0, 6);
    REFUSED(s, "", 0, 13); /* the empty name: 13 before 6 (V1) */
    /* 18 bytes left: no room for a name of one byte; there would be for the empty one, which no lane has */
    s = at(LAST, S - 18, LAST, 0);
    REFUSED(s, "A", 0, 6);
    REFUSED(s, "", 0, 13);
    IS(length(s, ""), ABSENT);
    /* 6 before 7, where both apply */
    REFUSED(at(LAST, S, LAST, S), "A", 1, 6);
    /* from the page before the last a record goes on to the last */
    s = at(LAST - 1, S - 18, LAST, 0);
    IS(append(s, "A", data, 0), 0);
    s = told_state();
    IS(s.key_page, LAST), IS(s.key_used, 19);
    HEADER(FRONT, 1, 2, NULL_ADDRESS, NULL_ADDRESS, 0);
}

/* ---- names: the longest, whose record fills a page of 65,536 to its end, and one byte more */

static uint64_t append_long(State s, size_t name) {
    edge_append(FIELDS(s), table, s.words, keys, s.key_bytes, lists, s.list_bytes, data, name, data, 5, told, 13);
    return told[0];
}
static uint64_t length_long(State s, size_t name) {
    edge_length(FIELDS(s), table, s.words, keys, s.key_bytes, lists, s.list_bytes, data, name, told, 13);
    return told[0];
}
static uint64_t reading_long(State s, size_t name) {
    edge_read(FIELDS(s), table, s.words, keys, s.key_bytes, lists, s.list_bytes, data, name, output, 5, told, 13);
    return told[0];
}

static void names(void) {
    State s = at(LAST, 0, LAST, 0);
    IS(append_long(s, NAME_MOST + 1), 3), IS(length_long(s, NAME_MOST + 1), 3), IS(reading_long(s, NAME_MOST + 1), 3);
    IS(length_long(s, NAME_MOST), ABSENT);
    IS(append_long(s, NAME_MOST), 0);
    s = told_state();
    IS(s.key_page, LAST), IS(s.key_used, NAME_MOST + 18), IS(NAME_MOST + 18 == S, S == 65536);
    IS(number_at(keys + FRONT, 2), NAME_MOST), IS(memcmp(keys + FRONT + 2, data, NAME_MOST), 0);
    HEADER(FRONT, NAME_MOST, 3, FRONT, FRONT + 5, 3);
    IS(length_long(s, NAME_MOST), 0), IS(told[1], 5);
    IS(reading_long(s, NAME_MOST), 0), IS(told[1], 5), IS(memcmp(output, data, 5), 0);
    /* with one byte used on the last page there is room for it but at 65,536 */
    s = at(LAST, 1, LAST, 0);
    IS(append_long(s, NAME_MOST), S == 65536 ? 6 : 0);
}

/* ---- the whole-state check (B2 to B6) */

static void states(void) {
    State good = at(LAST, S, LAST, S), s;
    IS(length(good, "A"), ABSENT);
#define ALL_2(s) REFUSED(s, "A", 0, 2), IS(length(s, "A"), 2), IS(reading(s, "A", 9), 2)
#define FIELD_IS_2(field, value) s = good, s.field = (value), ALL_2(s)
    FIELD_IS_2(key_page, LAST + 1);
    s = good, s.key_page = LAST + 1, s.key_used = 0, ALL_2(s);
    s = good, s.list_page = LAST + 1, s.list_used = 0, ALL_2(s);
    FIELD_IS_2(list_page, LAST + 1);
    FIELD_IS_2(key_page, SIZE_MAX);
    FIELD_IS_2(list_page, SIZE_MAX / S + 1); /* times s this is 2^64 */
    FIELD_IS_2(key_used, S + 1);
    FIELD_IS_2(list_used, S + 1);
    FIELD_IS_2(list_used, SIZE_MAX);
    FIELD_IS_2(buckets, 16); /* L above T */
    FIELD_IS_2(buckets, 6);  /* no power of two */
    FIELD_IS_2(count, 9);    /* more keys than L */
    FIELD_IS_2(size, 0), FIELD_IS_2(size, S - 1), FIELD_IS_2(size, S + 1), FIELD_IS_2(size, SIZE_MAX);
    FIELD_IS_2(size, 2 * S); /* not taken, or such an arena is too long for it */
    FIELD_IS_2(size, S / 2); /* not taken, or the used counts pass a page */
    /* remembered lengths one off what is lent */
    s = good, s.key_bytes = ARENA - 1, refused(__LINE__, s, 16, ARENA, ARENA, "A", 0, 2);
    s = good, s.list_bytes = ARENA - 1, refused(__LINE__, s, 16, ARENA, ARENA, "A", 0, 2);
    s = good, s.words = 14, refused(__LINE__, s, 16, ARENA, ARENA, "A", 0, 2);
    refused(__LINE__, good, 16, ARENA - 1, ARENA, "A", 0, 2);
    refused(__LINE__, good, 16, ARENA, ARENA - 1, "A", 0, 2);
    refused(__LINE__, good, 14, ARENA, ARENA, "A", 0, 2);
    /* the same length remembered and lent, and too long: an arena, the table */
    one_more(keys, true), one_more(lists, true);
    FIELD_IS_2(key_bytes, ARENA + 1);
    FIELD_IS_2(list_bytes, ARENA + 1);
    one_more(keys, false), one_more(lists, false);
    FIELD_IS_2(words, WORDS + 2);
    FIELD_IS_2(words, WORDS + 1);
    /* the longest table with all its buckets standing takes a name */
    IS(create(4194304, WORDS, ARENA, ARENA), 0);
    s = told_state(), s.key_page = s.list_page = LAST;
    IS(append(s, "A", data, 5), 0);
    s = told_state();
    IS(s.buckets, 4194304), IS(s.count, 1);
    IS(reading(s, "A", 5), 0), IS(told[1], 5), IS(memcmp(output, data, 5), 0);
}

/* ---- damage near 2^32 (W) */

static void damage(void) {
    State s = at(LAST, 0, LAST, 0);
    IS(append(s, "A", data, 9), 0);
    s = told_state();
    s.key_used = s.list_used = S;
    uint32_t *bucket = table;
    while (*bucket == NULL_ADDRESS) bucket += 2;
    uint8_t *h = keys + FRONT + 3, kept[16];
    memcpy(kept, h, 16);
    /* a record whose 19 bytes, or whose two length bytes, pass the arena's end; one on the page behind it */
    keys[ARENA - 18] = 1, keys[ARENA - 17] = 0;
    const uint32_t no_records[] = {ARENA - 18, ARENA - 1, ARENA, NULL_ADDRESS - 1};
    for (int i = 0; i < 4; i++) {
        *bucket = no_records[i];
        IS(length(s, "A"), 4);
        REFUSED(s, "A", 1, 4);
    }
    *bucket = FRONT;
    IS(reading(s, "A", 9), 0), IS(told[1], 9);
    /* a head whose block (12 bytes) ends with the arena is read; one byte on, behind it or before null it is 4 */
    const uint32_t heads[] = {ARENA - 12, ARENA - 11, ARENA, NULL_ADDRESS - 1};
    for (int i = 0; i < 4; i++) {
        h[0] = 3, h[12] = 0; /* num 3, rem 0: one block of eight bytes */
        for (int j = 0; j < 4; j++) h[4 + j] = heads[i] >> 8 * j;
        IS(reading(s, "A", 9), i ? 4 : 0);
    }
    memcpy(h, kept, 16);
    /* a link that leads to the page behind the arena */
    uint8_t link[4];
    memcpy(link, lists + FRONT + 8, 4);
    for (int j = 0; j < 4; j++) lists[FRONT + 8 + j] = (uint32_t)ARENA >> 8 * j;
    IS(reading(s, "A", 9), 4);
    memcpy(lists + FRONT + 8, link, 4);
    IS(reading(s, "A", 9), 0);
    /* a tail whose 4 link bytes end with the arena is good; one byte on, behind it or null it is 4 */
    const uint32_t tails[] = {ARENA - 4, ARENA - 3, ARENA, NULL_ADDRESS};
    for (int i = 0; i < 4; i++) {
        h[12] = 0;
        for (int j = 0; j < 4; j++) h[8 + j] = tails[i] >> 8 * j;
        IS(append(s, "A", data, 0), i ? 4 : 0);
    }
    memcpy(h, kept, 16);
}

/* ---- the bare arena (G2, G4, G5; F5, F7, F8) */

static uint64_t allocate_of(size_t size, size_t page, size_t used, size_t len, size_t n) {
    memset(told, 0xee, sizeof told);
    edge_allocate(page, used, size, len, n, told, 13);
    return told[0];
}
static uint64_t allocate(size_t page, size_t used, size_t len, size_t n) {
    return allocate_of(S, page, used, len, n);
}
#define AT(address, p, u) IS(told[1], address), IS(told[2], p), IS(told[3], u)
static uint64_t get(size_t page, size_t used, size_t len, uint32_t address, size_t n) {
    return edge_get(page, used, S, lists, len, address, output, n);
}
static uint64_t put(size_t page, size_t used, size_t len, uint32_t address, size_t n) {
    return edge_put(page, used, S, lists, len, address, data, n);
}

static void bare(void) {
    IS(allocate(LAST, S - 1, ARENA, 1), 0), AT(ARENA - 1, LAST, S);
    IS(allocate(LAST, S - 12, ARENA, 12), 0), AT(ARENA - 12, LAST, S);
    IS(allocate(LAST, 0, ARENA, S), 0), AT(FRONT, LAST, S);
    IS(allocate(LAST - 1, 1, ARENA, S), 0), AT(FRONT, LAST, S);
    IS(allocate(LAST, S - 11, ARENA, 12), NO_ROOM);
    IS(allocate(LAST, 1, ARENA, S), NO_ROOM);
    IS(allocate(LAST, S, ARENA, 1), NO_ROOM);
    IS(allocate(LAST, S - 2, ARENA - 1, 1), 0), AT(ARENA - 2, LAST, S - 1); /* the last page is short by one byte */
    IS(allocate(LAST, S - 1, ARENA - 1, 1), NO_ROOM);
    IS(allocate(LAST - 1, S, FRONT + 1, 1), 0), AT(FRONT, LAST, 1);
    /* 10: a page that no arena has, a used count past its page, a length that creation refuses */
    IS(allocate(LAST + 1, 0, ARENA, 1), 10);
    IS(allocate(LAST, S + 1, ARENA, 1), 10);
    IS(allocate(LAST, S, ARENA - 1, 1), 10);
    IS(allocate(0, 0, ARENA + 1, 1), 10);
    IS(allocate(LAST + 1, 0, ARENA + S, 1), 10); /* 2^32 bytes */
    IS(allocate(0, 0, 0, 1), 10);
    IS(allocate(0, 0, SIZE_MAX, 1), 10);
    IS(allocate(SIZE_MAX, SIZE_MAX, ARENA, 1), 10);
    /* 9 comes before 10 */
    IS(allocate(LAST, 0, ARENA, 0), 9);
    IS(allocate(LAST, 0, ARENA, S + 1), 9);
    IS(allocate(LAST, 0, ARENA, SIZE_MAX), 9);
    IS(allocate(LAST + 1, 0, ARENA + 1, 0), 9);
    IS(told[4], 0xeeeeeeeeeeeeeeee);
    /* and 10 before 9 for a size that isn't taken, whatever is asked */
    static const size_t no_sizes[] = {0, 1, 32768, 65535, 65537, 98304, 1048575, 1048577, 2097152, SIZE_MAX};
    for (int i = 0; i < 10; i++) {
        IS(allocate_of(no_sizes[i], 0, 0, ARENA, 0), 10);
        IS(allocate_of(no_sizes[i], 0, 0, ARENA, 1), 10);
        IS(allocate_of(no_sizes[i], SIZE_MAX, SIZE_MAX, SIZE_MAX, SIZE_MAX), 10);
        IS(edge_get(0, 1, no_sizes[i], lists, ARENA, 0, output, 0), 10);
        IS(edge_put(0, 1, no_sizes[i], lists, ARENA, 0, data, 1), 10);
    }

    memset(lists + ARENA - 8, 0x33, 8);
    IS(put(LAST, S, ARENA, ARENA - 4, 4), 0);
    IS(memcmp(lists + ARENA - 4, data, 4), 0), IS(lists[ARENA - 5], 0x33);
    IS(get(LAST, S, ARENA, ARENA - 4, 4), 0), IS(memcmp(output, data, 4), 0);
    IS(get(LAST, S, ARENA, ARENA - 1, 1), 0), IS(output[0], data[3]);
    IS(put(LAST, S, ARENA, FRONT - 1, 1), 0), IS(lists[FRONT - 1], data[0]); /* the end of the page before */
    IS(get(LAST, S - 4, ARENA, ARENA - 4, 0), 0); /* no bytes, at the used end */
    /* not good: past the end, past the used count, over two pages, behind the arena, at null */
    const struct { size_t used; uint32_t address; size_t n; } no_spans[] = {
        {S, ARENA - 3, 4}, {S - 1, ARENA - 1, 1}, {S - 4, ARENA - 4, 1},   {S, FRONT - 1, 2},
        {S, ARENA, 0},     {S, ARENA, 1},         {S, NULL_ADDRESS, 0}, {S, NULL_ADDRESS, 1}};
    for (int i = 0; i < 8; i++) {
        memset(output, 0x55, 8), memset(lists + ARENA - 8, 0x33, 8);
        IS(get(LAST, no_spans[i].used, ARENA, no_spans[i].address, no_spans[i].n), 10);
        IS(put(LAST, no_spans[i].used, ARENA, no_spans[i].address, no_spans[i].n), 10);
        IS(output[0], 0x55), IS(lists[ARENA - 1], 0x33);
    }
    /* a page or a length that no arena has */
    IS(get(LAST + 1, 0, ARENA, 0, 1), 10), IS(put(LAST + 1, 0, ARENA, 0, 1), 10);
    IS(get(LAST, S + 1, ARENA, 0, 1), 10), IS(put(LAST, S + 1, ARENA, 0, 1), 10);
    IS(get(0, 1, 0, 0, 0), 10), IS(put(0, 1, 0, 0, 0), 10);
    one_more(lists, true);
    IS(get(LAST, S, ARENA + 1, 0, 1), 10), IS(put(LAST, S, ARENA + 1, 0, 1), 10);
    one_more(lists, false);
    IS(get(LAST, S, ARENA, 0, 1), 0), IS(put(LAST, S, ARENA, 0, 1), 0); /* and the same with one byte less */
}

/* All of it with pages of one size, in arenas of their own. */
static void run_at(size_t size) {
    set_size(size);
    keys = reserved(ARENA), lists = reserved(ARENA);
    creation(), blocks(), records(), names(), states(), damage(), bare();
    if (munmap(keys, ARENA + 4096) || munmap(lists, ARENA + 4096)) exit(1);
}

int main(void) {
    struct rusage use;
    table = reserved((WORDS + 2) * 4 / 4096 * 4096 + 4096);
    data = reserved(2097152), output = reserved(2097152);
    for (size_t i = 0; i < 2097152; i++) data[i] = 1 + i % 251;
    for (size_t size = 65536; size <= 1048576; size *= 2) run_at(size);
    /* 8,388,608 words cleared are 33.6 MB; data, readings and the last two pages come to some 8 MB */
    getrusage(RUSAGE_SELF, &use);
    IS(use.ru_maxrss < 65536, 1);
    printf("edge: five page sizes, twice 4293918720 to 4294901760 bytes lent, at most %ld KiB of memory in use\n",
           use.ru_maxrss);
    printf("edge: %u checks\n", checks);
    return 0;
}
