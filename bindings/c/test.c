/* Calls every function of slots.h as a program in C does: the example index of docs/FORMAT.md is measured, written, closed, looked at, asked, tested,
 * stepped through, counted and lent from, and some calls are refused. The answers expected are those that docs/FORMAT.md tells, or can be read off it.
 * The number of checks is printed at the end; the status is 1 where one failed. */
#include <stdio.h>
#include <string.h>

#include "slots.h"

static const uint32_t list_0[] = {1, 4, 5, 6, 8, 12, 15, 16, 18, 20, 25, 26, 27, 28, 30};
static const uint32_t list_1[] = {3, 5, 12, 16, 26, 30, 31};
static const uint32_t both[] = {0, 1};
static int checks, failures;

#define IS(got, wanted) is(__LINE__, (uint64_t)(got), (uint64_t)(wanted))

static void is(int line, uint64_t got, uint64_t wanted) {
    checks++;
    if (got == wanted) return;
    failures++;
    printf("line %d: %lu, expected %lu\n", line, (unsigned long)got, (unsigned long)wanted);
}

/* Writes both lists one behind the other and closes the index over them: its length is 111. */
static size_t make(uint8_t *room, size_t size) {
    const uint32_t starts[] = {0, 55};
    uint64_t out[SLOTS_WRITE_FIELDS];
    IS(slots_write(32, 4, 0, list_0, 15, room, size, out, SLOTS_WRITE_FIELDS), SLOTS_ACCEPTED);
    IS(out[SLOTS_WRITE_LENGTH], 55);
    IS(slots_write(32, 4, 16, list_1, 7, room + 55, size - 55, out, SLOTS_WRITE_FIELDS), SLOTS_ACCEPTED);
    IS(out[SLOTS_WRITE_LENGTH], 24);
    IS(slots_close(room, size, 32, 4, 79, starts, 2, out, SLOTS_CLOSE_FIELDS), SLOTS_ACCEPTED);
    IS(out[SLOTS_CLOSE_LENGTH], 111);
    return (size_t)out[SLOTS_CLOSE_LENGTH];
}

static void answers(const uint8_t *index, size_t size) {
    const uint32_t shared[8] = {5, 12, 16, 26, 30};
    uint32_t slots[8] = {9, 9, 9, 9, 9, 9, 9, 9};
    uint64_t out[SLOTS_ASK_FIELDS];
    IS(slots_look(index, size, out, SLOTS_LOOK_FIELDS), SLOTS_ACCEPTED);
    IS(slots_ask(index, size, SLOTS_BY_SKIPS, both, 2, slots, 8, out, SLOTS_ASK_FIELDS), SLOTS_ACCEPTED);
    IS(out[SLOTS_ASK_COUNT], 5);
    IS(out[SLOTS_ASK_LOOKS], 9);
    IS(out[SLOTS_ASK_CODES], 14);
    IS(memcmp(slots, shared, sizeof slots), 0);
    IS(slots_test(index, size, 1, 26, out, SLOTS_TEST_FIELDS), SLOTS_ACCEPTED);
    IS(out[SLOTS_TEST_YES], 1);
    IS(slots_test(index, size, 1, 27, out, SLOTS_TEST_FIELDS), SLOTS_ACCEPTED);
    IS(out[SLOTS_TEST_YES], 0);
    IS(slots_count(index, size, 0, out, SLOTS_COUNT_FIELDS), SLOTS_ACCEPTED);
    IS(out[SLOTS_COUNT_COUNT], 15);
    IS(slots_lend(index, size, 1, out, SLOTS_LEND_FIELDS), 24);
    IS(out[SLOTS_LEND_START], 55);
    IS(out[SLOTS_LEND_LENGTH], 24);
}

/* Asks for `names`, and holds the fields of every position, and the two totals, to what is expected of the first three positions; behind them is 0. */
static void costs(const uint8_t *index, size_t size, uint32_t way, const uint32_t *names, size_t many, const uint64_t *looks, const uint64_t *codes) {
    uint32_t slots[15];
    uint64_t out[SLOTS_ASK_FIELDS];
    memset(out, 0xAA, sizeof out);
    IS(slots_ask(index, size, way, names, many, slots, 15, out, SLOTS_ASK_FIELDS), SLOTS_ACCEPTED);
    IS(out[SLOTS_ASK_LOOKS], looks[0] + looks[1] + looks[2]);
    IS(out[SLOTS_ASK_CODES], codes[0] + codes[1] + codes[2]);
    for (int i = 0; i < SLOTS_MOST_NAMES; i++) {
        IS(out[SLOTS_ASK_LOOKS_AT + i], i < 3 ? looks[i] : 0);
        IS(out[SLOTS_ASK_CODES_AT + i], i < 3 ? codes[i] : 0);
    }
}

/* Which list cost what. List 1, the smaller, is the starting list where it is named. Its seven slots are tried in list 0 at 9 looks and 14 codes, as
 * docs/FORMAT.md tells. Where list 0 is named again, 5 12 16 26 30 are left to be tried, at 2 2 1 2 1 looks and 2 1 3 3 2 codes. In itself list 1 costs
 * the look at its one entry that finds 26, and 0, 1 and 2 codes for 26, 30 and 31. */
static void which_list_cost_what(const uint8_t *index, size_t size) {
    static const struct {
        size_t many;
        uint32_t names[3];
        uint64_t looks[3], codes[3];
    } asked[] = {
        {2, {0, 1}, {9, 0}, {14, 0}},
        {2, {1, 0}, {0, 9}, {0, 14}},
        {3, {1, 0, 0}, {0, 9, 8}, {0, 14, 11}},
        {3, {0, 1, 0}, {9, 0, 8}, {14, 0, 11}},
        {3, {1, 0, 1}, {0, 9, 1}, {0, 14, 3}},
        {2, {1, 1}, {0, 1}, {0, 3}},
        {1, {0}, {0}, {0}},
    };
    const uint64_t nothing[3] = {0, 0, 0};
    for (size_t i = 0; i < sizeof asked / sizeof asked[0]; i++) {
        costs(index, size, SLOTS_BY_SKIPS, asked[i].names, asked[i].many, asked[i].looks, asked[i].codes);
        costs(index, size, SLOTS_PLAIN, asked[i].names, asked[i].many, nothing, nothing);
    }
}

/* Lists 0 1 0 1 .. 0 1, which fill all positions: at position 1 stands the starting list, and the first to be tried in list 0 are seven slots. */
static void sixteen_names(const uint8_t *index, size_t size) {
    const uint32_t names[SLOTS_MOST_NAMES] = {0, 1, 0, 1, 0, 1, 0, 1, 0, 1, 0, 1, 0, 1, 0, 1};
    uint32_t slots[7];
    uint64_t out[SLOTS_ASK_FIELDS];
    IS(slots_ask(index, size, SLOTS_BY_SKIPS, names, SLOTS_MOST_NAMES, slots, 7, out, SLOTS_ASK_FIELDS), SLOTS_ACCEPTED);
    IS(out[SLOTS_ASK_LOOKS], 9 + 7 * 8 + 7 * 1);
    IS(out[SLOTS_ASK_CODES], 14 + 7 * 11 + 7 * 3);
    IS(out[SLOTS_ASK_LOOKS_AT], 9);
    IS(out[SLOTS_ASK_CODES_AT], 14);
    IS(out[SLOTS_ASK_LOOKS_AT + 1], 0);
    IS(out[SLOTS_ASK_CODES_AT + 1], 0);
    for (int i = 2; i < SLOTS_MOST_NAMES; i++) {
        IS(out[SLOTS_ASK_LOOKS_AT + i], names[i] == 0 ? 8 : 1);
        IS(out[SLOTS_ASK_CODES_AT + i], names[i] == 0 ? 11 : 3);
    }
}

/* Asks for what is refused: behind number and place all fields are 0. */
static void zeros(const uint8_t *index, size_t size, uint32_t way, const uint32_t *names, size_t many, size_t room, uint32_t number, uint64_t place) {
    uint32_t slots[7];
    uint64_t out[SLOTS_ASK_FIELDS];
    memset(out, 0xAA, sizeof out);
    IS(slots_ask(index, size, way, names, many, slots, room, out, SLOTS_ASK_FIELDS), number);
    IS(out[SLOTS_ASK_NUMBER], number);
    IS(out[SLOTS_ASK_PLACE], place);
    for (int i = SLOTS_ASK_COUNT; i < SLOTS_ASK_FIELDS; i++) IS(out[i], 0);
}

static void refusals_cost_nothing(const uint8_t *index, size_t size) {
    const uint32_t third_is_none[] = {1, 0, 2};
    zeros(index, size - 1, SLOTS_BY_SKIPS, both, 2, 7, SLOTS_BAD_TAG, 0);
    zeros(index, size, 2, both, 2, 7, SLOTS_BAD_WAY, 0);
    zeros(index, size, SLOTS_BY_SKIPS, both, 0, 7, SLOTS_BAD_NAMES, 0);
    zeros(index, size, SLOTS_BY_SKIPS, third_is_none, 3, 7, SLOTS_NO_LIST, 2);
    zeros(index, size, SLOTS_BY_SKIPS, both, 2, 6, SLOTS_NO_ROOM, 7);
    zeros(index, size, SLOTS_PLAIN, both, 2, 6, SLOTS_NO_ROOM, 7);
}

static void refusals(uint8_t *index, size_t size) {
    uint32_t slots[6] = {9, 9, 9, 9, 9, 9};
    uint64_t out[SLOTS_ASK_FIELDS];
    IS(slots_ask(index, size, SLOTS_BY_SKIPS, both, 2, slots, 6, out, SLOTS_ASK_FIELDS), SLOTS_NO_ROOM);
    IS(out[SLOTS_ASK_PLACE], 7);
    IS(out[SLOTS_ASK_COUNT], 0);
    for (int i = 0; i < 6; i++) IS(slots[i], 9);
    IS(slots_lend(index, size, 2, out, SLOTS_LEND_FIELDS), 0);
    IS(slots_count(index, size, 2, out, SLOTS_COUNT_FIELDS), SLOTS_NO_LIST);
    IS(slots_test(index, size, 0, 33, out, SLOTS_TEST_FIELDS), SLOTS_OUTSIDE);
    index[54] = 0x81; /* the last code of list 0 then asks for one byte more than there is */
    IS(slots_test(index, size, 1, 5, out, SLOTS_TEST_FIELDS), SLOTS_BAD_CODE);
    IS(out[SLOTS_TEST_PLACE], 0);
    index[54] = 0x01;
}

/* What slots_next tells, all fields of it, also on refusal. */
static void next_is(const uint8_t *index, size_t size, uint32_t name, uint32_t slot, uint32_t number, uint64_t place, uint64_t next) {
    uint64_t out[SLOTS_NEXT_FIELDS + 1] = {99, 99, 99, 99};
    IS(slots_next(index, size, name, slot, out, SLOTS_NEXT_FIELDS), number);
    IS(out[SLOTS_NEXT_NUMBER], number);
    IS(out[SLOTS_NEXT_PLACE], place);
    IS(out[SLOTS_NEXT_SLOT], next);
    IS(out[SLOTS_NEXT_FIELDS], 99);
}

/* The blocks of list 0 are 1 4 5 6, 8 12 15 16, 18 20 25 26 and 27 28 30. List 1 has bits for 3 5 12 16, and the block 26 30 31. */
static void nexts(uint8_t *index, size_t size) {
    next_is(index, size, 0, 5, SLOTS_ACCEPTED, 0, 5); /* the slot itself counts */
    next_is(index, size, 0, 7, SLOTS_ACCEPTED, 0, 8); /* the first of the next block */
    next_is(index, size, 0, 9, SLOTS_ACCEPTED, 0, 12);
    next_is(index, size, 0, 31, SLOTS_ACCEPTED, 0, 0);
    next_is(index, size, 1, 6, SLOTS_ACCEPTED, 0, 12);
    next_is(index, size, 1, 16, SLOTS_ACCEPTED, 0, 16);
    next_is(index, size, 1, 17, SLOTS_ACCEPTED, 0, 26); /* behind the bits comes the tail */
    next_is(index, size, 1, 32, SLOTS_ACCEPTED, 0, 0);
    index[68] = 0x00; /* the bits of 9 to 16: 12 and 16 are in list 1 no more */
    next_is(index, size, 1, 6, SLOTS_ACCEPTED, 0, 26);
    index[68] = 0x11;
}

static void nexts_refused(uint8_t *index, size_t size) {
    next_is(index, size, 0, 0, SLOTS_OUTSIDE, 0, 0);
    next_is(index, size, 1, 33, SLOTS_OUTSIDE, 0, 0);
    next_is(index, size, 1, UINT32_MAX, SLOTS_OUTSIDE, 0, 0);
    next_is(index, size, 2, 5, SLOTS_NO_LIST, 0, 0);
    next_is(index, size, 2, 0, SLOTS_NO_LIST, 0, 0);
    next_is(index, size, UINT32_MAX, 33, SLOTS_NO_LIST, 0, 0);
    next_is(index, size - 1, 2, 0, SLOTS_BAD_TAG, 0, 0);
    index[54] = 0x81; /* the last code of list 0 then asks for one byte more than there is */
    next_is(index, size, 0, 5, SLOTS_BAD_CODE, 0, 0);
    next_is(index, size, 2, 0, SLOTS_BAD_CODE, 0, 0);
    index[54] = 0x01;
    index[78] = 0x80; /* the last code of list 1, likewise: the place is the list, whichever is asked */
    next_is(index, size, 0, 5, SLOTS_BAD_CODE, 1, 0);
    index[78] = 0x00;
}

/* Steps through a list of the example: from 1 on, and then from one above the slot told, until there is none. (None of them holds 32, the last slot of
 * the rack; from one above that, there would be a refusal.) */
static void stepped(const uint8_t *index, size_t size, uint32_t name, const uint32_t *slots, size_t many) {
    uint64_t out[SLOTS_NEXT_FIELDS];
    uint32_t from = 1;
    for (size_t i = 0; i <= many; i++) {
        IS(slots_next(index, size, name, from, out, SLOTS_NEXT_FIELDS), SLOTS_ACCEPTED);
        IS(out[SLOTS_NEXT_SLOT], i < many ? slots[i] : 0);
        from = (uint32_t)out[SLOTS_NEXT_SLOT] + 1;
    }
}

/* `out` takes what fits of a next slot, and what stands behind stays. */
static void shorter_next(const uint8_t *index, size_t size, size_t length) {
    const uint64_t whole[SLOTS_NEXT_FIELDS] = {0, 0, 12};
    const uint64_t refused[SLOTS_NEXT_FIELDS] = {16, 0, 0};
    uint64_t out[SLOTS_NEXT_FIELDS + 2];
    memset(out, 0xAA, sizeof out);
    IS(slots_next(index, size, 0, 9, out, length), SLOTS_ACCEPTED);
    for (size_t i = 0; i < SLOTS_NEXT_FIELDS + 2; i++) IS(out[i], i < length && i < SLOTS_NEXT_FIELDS ? whole[i] : 0xAAAAAAAAAAAAAAAA);
    memset(out, 0xAA, sizeof out);
    IS(slots_next(index, size, 0, 33, out, length), SLOTS_OUTSIDE);
    for (size_t i = 0; i < SLOTS_NEXT_FIELDS + 2; i++) IS(out[i], i < length && i < SLOTS_NEXT_FIELDS ? refused[i] : 0xAAAAAAAAAAAAAAAA);
}

/* List 1 cut at 15, not at 16: the lowest bit of its bits, 28 11 at bytes 67 and 68, was slot 16 and is now beyond the cut. Every call that judges
 * the record refuses it, with list 1 as the place. With that bit cleared the index is sound, and the list has one slot less. */
static void bits_beyond_the_cut(uint8_t *index, size_t size) {
    const uint32_t starts[] = {0, 55};
    uint32_t slots[7] = {9, 9, 9, 9, 9, 9, 9};
    uint64_t out[SLOTS_ASK_FIELDS];
    index[55] = 15;
    IS(slots_look(index, size, out, SLOTS_LOOK_FIELDS), SLOTS_BAD_BITS);
    IS(out[SLOTS_LOOK_PLACE], 1);
    IS(slots_ask(index, size, SLOTS_PLAIN, both, 2, slots, 7, out, SLOTS_ASK_FIELDS), SLOTS_BAD_BITS);
    IS(out[SLOTS_ASK_PLACE], 1);
    for (int i = 0; i < 7; i++) IS(slots[i], 9);
    IS(slots_test(index, size, 0, 1, out, SLOTS_TEST_FIELDS), SLOTS_BAD_BITS);
    IS(out[SLOTS_TEST_PLACE], 1);
    next_is(index, size, 0, 1, SLOTS_BAD_BITS, 1, 0);
    IS(slots_count(index, size, 0, out, SLOTS_COUNT_FIELDS), SLOTS_BAD_BITS);
    IS(out[SLOTS_COUNT_PLACE], 1);
    IS(slots_lend(index, size, 0, out, SLOTS_LEND_FIELDS), 0);
    IS(slots_close(index, size, 32, 4, 79, starts, 2, out, SLOTS_CLOSE_FIELDS), SLOTS_BAD_BITS);
    IS(out[SLOTS_CLOSE_PLACE], 1);
    index[68] = 0x10;
    IS(slots_count(index, size, 1, out, SLOTS_COUNT_FIELDS), SLOTS_ACCEPTED);
    IS(out[SLOTS_COUNT_COUNT], 6);
    index[55] = 16;
    index[68] = 0x11;
}

/* What slots_bound tells, all fields of it, also on refusal. */
static void bound_is(uint32_t u, uint32_t block, uint32_t cut, uint32_t n, uint32_t number, uint64_t bytes) {
    uint64_t out[SLOTS_BOUND_FIELDS + 1] = {99, 99, 99, 99};
    IS(slots_bound(u, block, cut, n, out, SLOTS_BOUND_FIELDS), number);
    IS(out[SLOTS_BOUND_NUMBER], number);
    IS(out[SLOTS_BOUND_PLACE], 0);
    IS(out[SLOTS_BOUND_BYTES], bytes);
    IS(out[SLOTS_BOUND_FIELDS], 99);
}

/* How many bytes a record can need, summed up by hand. */
static void bounds(void) {
    bound_is(32, 4, 0, 15, SLOTS_ACCEPTED, 12 + 4 * 8 + 11); /* list 0 of the example: 55, which is its length */
    bound_is(32, 4, 16, 3, SLOTS_ACCEPTED, 12 + 2 + 8 + 2);  /* list 1: 24, likewise */
    bound_is(32, 4, 16, 16, SLOTS_ACCEPTED, 12 + 2 + 4 * 8 + 12);
    bound_is(32, 4, 32, 0, SLOTS_ACCEPTED, 12 + 4); /* bits alone */
    bound_is(32, 4, 9, 0, SLOTS_ACCEPTED, 12 + 2);
    bound_is(1, 1, 0, 0, SLOTS_ACCEPTED, 12);
    bound_is(1, 1, 0, 1, SLOTS_ACCEPTED, 12 + 8);
    bound_is(130, 128, 0, 2, SLOTS_ACCEPTED, 12 + 8 + 1 + 1);
    bound_is(128, 1, 0, 0, SLOTS_ACCEPTED, 12); /* without a slot, the last two terms stay */
    bound_is(129, 1, 0, 0, SLOTS_ACCEPTED, 12 + 1);
    bound_is(16384, 1, 0, 0, SLOTS_ACCEPTED, 12 + 127);
    bound_is(16385, 1, 0, 0, SLOTS_ACCEPTED, 12 + 127 + 1);
    bound_is(16385, 1, 1, 0, SLOTS_ACCEPTED, 12 + 1 + 127); /* they go by u - cut */
    bound_is(SLOTS_MOST_SLOTS, 1, 0, SLOTS_MOST_SLOTS, SLOTS_ACCEPTED, 8396811); /* 12 + 8 * 1048576 + 8128 + 63 */
    bound_is(SLOTS_MOST_SLOTS, 128, 0, SLOTS_MOST_SLOTS, SLOTS_ACCEPTED, 12 + 8192 * 8 + 8192 * 127 + 8128 + 63);
    bound_is(SLOTS_MOST_SLOTS, 128, SLOTS_MOST_SLOTS, 0, SLOTS_ACCEPTED, 12 + 131072);
}

/* Everything is wrong at first, and then one thing after the other is put right. */
static void bounds_refused(void) {
    bound_is(0, 0, UINT32_MAX, UINT32_MAX, SLOTS_BAD_RANGE, 0);
    bound_is(SLOTS_MOST_SLOTS + 1, 4, UINT32_MAX, UINT32_MAX, SLOTS_BAD_RANGE, 0);
    bound_is(UINT32_MAX, 4, 0, 0, SLOTS_BAD_RANGE, 0);
    bound_is(32, 0, UINT32_MAX, UINT32_MAX, SLOTS_BAD_RANGE, 0);
    bound_is(32, 129, 33, 33, SLOTS_BAD_RANGE, 0);
    bound_is(32, 4, UINT32_MAX, UINT32_MAX, SLOTS_BAD_CUT, 0);
    bound_is(32, 4, 33, 0, SLOTS_BAD_CUT, 0);
    bound_is(32, 4, 32, UINT32_MAX, SLOTS_NOT_RISING, 0);
    bound_is(32, 4, 32, 1, SLOTS_NOT_RISING, 0);
    bound_is(32, 4, 16, 17, SLOTS_NOT_RISING, 0);
    bound_is(32, 4, 0, 33, SLOTS_NOT_RISING, 0);
    bound_is(32, 4, 0, 32, SLOTS_ACCEPTED, 12 + 8 * 8 + 24);
}

/* Writes these slots into exactly as many bytes as slots_bound tells, which for all lists below is less than the room here: the record has `length`
 * bytes, and what stands behind them stays. */
static void reserved(uint32_t u, uint32_t block, uint32_t cut, const uint32_t *slots, size_t many, uint64_t length) {
    uint8_t room[64];
    uint64_t out[SLOTS_WRITE_FIELDS];
    uint32_t n = 0;
    for (size_t i = 0; i < many; i++) n += slots[i] > cut;
    IS(slots_bound(u, block, cut, n, out, SLOTS_BOUND_FIELDS), SLOTS_ACCEPTED);
    size_t bytes = (size_t)out[SLOTS_BOUND_BYTES];
    IS(bytes < sizeof room, 1);
    if (bytes >= sizeof room) return;
    memset(room, 0xAA, sizeof room);
    IS(slots_write(u, block, cut, slots, many, room, bytes, out, SLOTS_WRITE_FIELDS), SLOTS_ACCEPTED);
    IS(out[SLOTS_WRITE_LENGTH], length);
    for (size_t i = (size_t)length; i < sizeof room; i++) IS(room[i], 0xAA);
}

static void reserve_then_write(void) {
    const uint32_t far[] = {1, 130}; /* the code of 130 has two bytes, and the bound is reached: 22 */
    const uint32_t near[] = {1, 129, 130};
    reserved(32, 4, 0, list_0, 15, 55);
    reserved(32, 4, 16, list_1, 7, 24);
    reserved(130, 128, 0, far, 2, 12 + 8 + 2);
    reserved(130, 128, 0, near, 3, 12 + 8 + 2); /* one less than the 23 that are reserved */
    reserved(130, 128, 129, near, 3, 12 + 17 + 8);
    reserved(300, 128, 0, NULL, 0, 12);
}

/* `out` takes what fits of a bound, and what stands behind stays. */
static void shorter_bound(size_t length) {
    const uint64_t whole[SLOTS_BOUND_FIELDS] = {0, 0, 24};
    const uint64_t refused[SLOTS_BOUND_FIELDS] = {13, 0, 0};
    uint64_t out[SLOTS_BOUND_FIELDS + 1];
    memset(out, 0xAA, sizeof out);
    IS(slots_bound(32, 4, 16, 3, out, length), SLOTS_ACCEPTED);
    for (size_t i = 0; i <= SLOTS_BOUND_FIELDS; i++) IS(out[i], i < length && i < SLOTS_BOUND_FIELDS ? whole[i] : 0xAAAAAAAAAAAAAAAA);
    memset(out, 0xAA, sizeof out);
    IS(slots_bound(32, 4, 16, 17, out, length), SLOTS_NOT_RISING);
    for (size_t i = 0; i <= SLOTS_BOUND_FIELDS; i++) IS(out[i], i < length && i < SLOTS_BOUND_FIELDS ? refused[i] : 0xAAAAAAAAAAAAAAAA);
}

/* `out` takes what fits, and what stands behind the fields stays. An empty slice may be null. */
static void edges(const uint8_t *index, size_t size) {
    uint64_t out[SLOTS_COUNT_FIELDS + 1] = {99, 99, 99, 99};
    IS(slots_count(index, size, 0, out, 2), SLOTS_ACCEPTED);
    IS(out[SLOTS_COUNT_PLACE], 0);
    IS(out[SLOTS_COUNT_COUNT], 99);
    IS(slots_count(index, size, 0, out, 4), SLOTS_ACCEPTED);
    IS(out[SLOTS_COUNT_COUNT], 15);
    IS(out[SLOTS_COUNT_FIELDS], 99);
    IS(slots_look(NULL, 0, NULL, 0), SLOTS_BAD_SIZE);
    IS(slots_ask(NULL, 0, 0, NULL, 0, NULL, 0, NULL, 0), SLOTS_BAD_SIZE);
    IS(slots_ask(index, size, 0, NULL, 0, NULL, 0, NULL, 0), SLOTS_BAD_NAMES);
    IS(slots_test(NULL, 0, 0, 1, NULL, 0), SLOTS_BAD_SIZE);
    IS(slots_next(NULL, 0, 0, 1, NULL, 0), SLOTS_BAD_SIZE);
    IS(slots_next(index, size, 0, 1, NULL, 0), SLOTS_ACCEPTED);
    IS(slots_count(NULL, 0, 0, NULL, 0), SLOTS_BAD_SIZE);
    IS(slots_lend(NULL, 0, 0, NULL, 0), 0);
    IS(slots_bound(32, 4, 0, 0, NULL, 0), SLOTS_ACCEPTED);
    IS(slots_write(32, 4, 0, NULL, 0, NULL, 0, NULL, 0), SLOTS_NO_ROOM);
    IS(slots_close(NULL, 0, 32, 4, 0, NULL, 0, NULL, 0), SLOTS_BAD_RANGE);
}

/* An `out` of any length takes the fields that fit, those of the positions too, and what stands behind stays. */
static void shorter_out(const uint8_t *index, size_t size, size_t length) {
    const uint32_t names[] = {1, 0, 0};
    const uint64_t whole[SLOTS_ASK_FIELDS] = {0, 0, 5, 17, 25, [SLOTS_ASK_LOOKS_AT + 1] = 9, 8, [SLOTS_ASK_CODES_AT + 1] = 14, 11};
    uint32_t slots[7];
    uint64_t out[SLOTS_ASK_FIELDS + 1];
    memset(out, 0xAA, sizeof out);
    IS(slots_ask(index, size, SLOTS_BY_SKIPS, names, 3, slots, 7, out, length), SLOTS_ACCEPTED);
    for (size_t i = 0; i <= SLOTS_ASK_FIELDS; i++) IS(out[i], i < length && i < SLOTS_ASK_FIELDS ? whole[i] : 0xAAAAAAAAAAAAAAAA);
}

int main(void) {
    uint8_t room[120];
    memset(room, 0xAA, sizeof room);
    size_t size = make(room, sizeof room);
    for (size_t i = size; i < sizeof room; i++) IS(room[i], 0xAA);
    answers(room, size);
    which_list_cost_what(room, size);
    sixteen_names(room, size);
    refusals_cost_nothing(room, size);
    refusals(room, size);
    nexts(room, size);
    nexts_refused(room, size);
    stepped(room, size, 0, list_0, 15);
    stepped(room, size, 1, list_1, 7);
    for (size_t length = 0; length <= SLOTS_NEXT_FIELDS + 2; length++) shorter_next(room, size, length);
    bits_beyond_the_cut(room, size);
    edges(room, size);
    shorter_out(room, size, 0);
    shorter_out(room, size, 5);  /* as many as there are before the positions */
    shorter_out(room, size, 20); /* all but one of the looks, and no codes */
    shorter_out(room, size, 23);
    shorter_out(room, size, SLOTS_ASK_FIELDS);
    shorter_out(room, size, SLOTS_ASK_FIELDS + 1);
    bounds();
    bounds_refused();
    reserve_then_write();
    for (size_t length = 0; length <= SLOTS_BOUND_FIELDS + 1; length++) shorter_bound(length);
    IS(strcmp(slots_reason(SLOTS_BAD_CUT), "the cut is above u"), 0);
    IS(strcmp(slots_reason(SLOTS_OUTSIDE), "the slot asked about is not in 1..u"), 0);
    IS(strcmp(slots_reason(SLOTS_BAD_BITS), "a bit beyond the cut is set"), 0);
    IS(strcmp(slots_reason(SLOTS_BAD_BITS + 1), "a number that this header does not know"), 0);
    printf("%d checks, %d failed\n", checks, failures);
    return failures != 0;
}
