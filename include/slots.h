/* slots.h: an index of packed lists of slots: looked at, asked, tested, stepped through, counted, lent from, measured, written and closed.
 *
 * Link with build/libslots.a or build/libslots.so, which ./build-lib makes. Both are for Linux on x86-64; of the C library they need memset alone.
 * This header is C99 and C++98, or newer. docs/FORMAT.md has the format; README.md has a whole example.
 *
 * Every call gets an answer, whatever bytes and numbers it is given. The number of the answer is 0 where the call is accepted. Where it is not, the
 * number says why (see slots_refusal below) and the place says where: nothing else is then known, every other field of the answer is 0, and
 * no byte of `slots` and `room` has changed. What is said here of each function is proved of the code that is behind it.
 *
 * Slices. A pointer and, right behind it, how many elements it leads to. A slice of length 0 is not touched, and its pointer may be anything, also null.
 *
 * The answer. Each function returns its number (slots_lend: a length), and leaves all fields of its answer in `out`, from the first on, refused or not. `out`
 * may have any length: a shorter one receives the fields that fit, and what stands behind the last field stays. The enums below
 * name the fields, and how many there are (.._FIELDS).
 *
 * What nobody can check for you: a pointer is aligned for its elements and leads to as many of them as you say; a slice that is
 * written to (`slots` of slots_ask, `room`, `out`) shares no byte with another slice of the same call; and no other thread
 * changes any of them meanwhile. The library keeps nothing from call to call, so threads with buffers of their own need no lock.
 *
 * Lists, positions and places count from 0, slots from 1. u is how many slots the rack has, B how many slots go into a block, k how many lists the
 * index has. */
#ifndef SLOTS_H
#define SLOTS_H

#include <stddef.h>
#include <stdint.h>

#ifdef __cplusplus
extern "C" {
#endif

/* A length has 64 bits in the library: where size_t has fewer, this does not compile. */
typedef char slots_size_has_64_bits[sizeof(size_t) == 8 ? 1 : -1];

/* The most that an index can have, and a question. A record that slots_write makes is never longer than SLOTS_MOST_RECORD; for a list at hand
 * slots_bound tells a closer number. */
enum {
    SLOTS_MOST_BYTES = 16777216, /* of an index */
    SLOTS_MOST_SLOTS = 1048576,  /* u */
    SLOTS_MOST_BLOCK = 128,      /* B */
    SLOTS_MOST_LISTS = 4096,     /* k */
    SLOTS_MOST_NAMES = 16,       /* in one question */
    SLOTS_MOST_RECORD = 11665420 /* bytes */
};

/* The numbers of refusal. The place is 0 but where a line tells another; slots_reason has these words as text. */
enum slots_refusal {
    SLOTS_ACCEPTED = 0,
    SLOTS_BAD_SIZE = 1,    /* the index has fewer than 24 or more than 16,777,216 bytes */
    SLOTS_BAD_TAG = 2,     /* the index does not end in the tag SLOT */
    SLOTS_BAD_EDITION = 3, /* the edition is not 1 */
    SLOTS_BAD_RANGE = 4,   /* u is not in 1..1,048,576, B not in 1..128, or the number of lists not in 1..4,096 */
    SLOTS_BAD_PARTS = 5,   /* the parts do not make up the size of the index, the first start is not 0, or a record has fewer than 12 bytes */
    SLOTS_BAD_HEAD = 6,    /* the head of a record does not fit u or the size of the record; place: the list */
    SLOTS_BAD_BLOCK = 7,   /* the codes of a block do not lie where they should; place: the list */
    SLOTS_BAD_CODE = 8,    /* a code is damaged, or bytes remain behind the codes of a block; place: the list */
    SLOTS_BAD_SLOT = 9,    /* a slot is above u or out of order; place: the list */
    SLOTS_BAD_NAMES = 10,  /* the question has no name, or more than 16 */
    SLOTS_NO_LIST = 11,    /* there is no list of that name; place: the position of the first such name, 0 where the call has one name */
    SLOTS_NO_ROOM = 12,    /* the room is too small; place: the room needed, in slots for slots_ask and in bytes for the others */
    SLOTS_NOT_RISING = 13, /* the slots to be written do not rise strictly within 1..u, or more are to lie above the cut than there are slots there; place: the position of the first bad one, 0 for slots_bound */
    SLOTS_BAD_WAY = 14,    /* the way is neither 0 (plain) nor 1 (by skips) */
    SLOTS_BAD_CUT = 15,    /* the cut is above u */
    SLOTS_OUTSIDE = 16,    /* the slot asked about is not in 1..u */
    SLOTS_BAD_BITS = 17    /* a bit beyond the cut is set; place: the list */
};

/* How a question goes through the lists. Both ways find the same slots. */
enum slots_way {
    SLOTS_PLAIN = 0,   /* each list is read along once; looks and codes are 0 */
    SLOTS_BY_SKIPS = 1 /* what the smallest list holds is sought in the others by leaps over blocks; looks and codes tell what that cost */
};

/* slots_look: whether the index is sound.
 *
 * Accepted exactly where no row of 1 to 9 and 17 applies to the index; otherwise the first that does, in the order that docs/FORMAT.md gives (of a
 * list: 6, 17, then 7 to 9 of its blocks). Every function below that takes an index looks at the whole of it first, and refuses it with the same
 * number and place. */
enum slots_look_field { SLOTS_LOOK_NUMBER, SLOTS_LOOK_PLACE, SLOTS_LOOK_FIELDS };
uint32_t slots_look(const uint8_t *index, size_t index_len, uint64_t *out, size_t out_len);

/* slots_ask: which slots stand in all lists named.
 *
 * Refuses, in this order: the index, 14 (way), 10 (how many names), 11 (a name that is no list), 12 (`slots` is shorter than the smallest list named,
 * also where the answer would fit). Names may come in any order, and one more than once.
 * Accepted: the first `count` places of `slots` hold exactly the slots that every list named holds, lowest first, each once; every place behind
 * them, to the end of the slice, holds 0. `looks` is how often a search compared a skip entry with the slot that it sought, `codes` how
 * many codes were read in the blocks that searches led to. Both are exact, and both are totals.
 * Which list cost what: SLOTS_ASK_LOOKS_AT + i and SLOTS_ASK_CODES_AT + i are the fields of the name at position i of the question, as it was asked, with
 * the looks and the codes of that position. A list that is named twice has two positions, each with its own cost. The smallest list (of several
 * smallest, or where it is named again: the one named first) is the starting list, whose slots are sought in the others: both fields of its position
 * are 0. So are those of positions behind the last name, and all of them where the way is plain or the question is refused. The two totals are the sums of
 * these fields. An `out` of 5 receives all that stands before them.
 * What a position may cost: where q slots are sought in a list of m blocks, it has at most q + 2qe + 2 * floor(m / 2^e) looks, for every whole e from 0 on.
 * Those sought are the candidates above the list's cut; for the others a bit is tested, which is no look. */
enum slots_ask_field {
    SLOTS_ASK_NUMBER,
    SLOTS_ASK_PLACE,
    SLOTS_ASK_COUNT,
    SLOTS_ASK_LOOKS,
    SLOTS_ASK_CODES,
    SLOTS_ASK_LOOKS_AT,                                         /* the first of 16, one for each position */
    SLOTS_ASK_CODES_AT = SLOTS_ASK_LOOKS_AT + SLOTS_MOST_NAMES, /* likewise */
    SLOTS_ASK_FIELDS = SLOTS_ASK_CODES_AT + SLOTS_MOST_NAMES    /* 37 */
};
uint32_t slots_ask(const uint8_t *index, size_t index_len, uint32_t way, const uint32_t *names, size_t names_len,
                   uint32_t *slots, size_t slots_len, uint64_t *out, size_t out_len);

/* slots_test: whether a list holds a slot.
 *
 * Refuses, in this order: the index, 11, 16. Accepted: `yes` is 1 where the list holds the slot, and 0 where it does not. */
enum slots_test_field { SLOTS_TEST_NUMBER, SLOTS_TEST_PLACE, SLOTS_TEST_YES, SLOTS_TEST_FIELDS };
uint32_t slots_test(const uint8_t *index, size_t index_len, uint32_t name, uint32_t slot, uint64_t *out, size_t out_len);

/* slots_next: which slot of a list comes next, from a slot on.
 *
 * Refuses, in this order: the index, 11, 16. Accepted: SLOTS_NEXT_SLOT is the least slot of the list that is not below `slot`, so `slot` itself where
 * the list holds it; it is 0, which is no slot, where the list holds none from there on. A refusal leaves 0 there too, and does not say "none".
 * A list is stepped through by asking from 1, and then each time from one above the slot told, until that is 0 or u. (Every call looks at the whole
 * index. All slots of a list in one call: slots_ask, with this name alone.) */
enum slots_next_field { SLOTS_NEXT_NUMBER, SLOTS_NEXT_PLACE, SLOTS_NEXT_SLOT, SLOTS_NEXT_FIELDS };
uint32_t slots_next(const uint8_t *index, size_t index_len, uint32_t name, uint32_t slot, uint64_t *out, size_t out_len);

/* slots_count: how many slots a list holds.
 *
 * Refuses, in this order: the index, 11. Accepted: `count` is that number. */
enum slots_count_field { SLOTS_COUNT_NUMBER, SLOTS_COUNT_PLACE, SLOTS_COUNT_COUNT, SLOTS_COUNT_FIELDS };
uint32_t slots_count(const uint8_t *index, size_t index_len, uint32_t name, uint64_t *out, size_t out_len);

/* slots_lend: which bytes of the index are a list's record.
 *
 * Has no number: it returns the record's length, at least 12, and the record is index[start] up to index[start + length - 1].
 * 0, with start 0 and length 0, exactly where slots_count refuses the same index and name, and that tells why. */
enum slots_lend_field { SLOTS_LEND_START, SLOTS_LEND_LENGTH, SLOTS_LEND_FIELDS };
uint32_t slots_lend(const uint8_t *index, size_t index_len, uint32_t name, uint64_t *out, size_t out_len);

/* slots_bound: how many bytes a record can need, told before it is written.
 *
 * `u`, `block` and `cut` are those that slots_write is to be given, and `n` is how many of the slots to be written lie above the cut.
 * Refuses, in this order: 4 (u or block), 15, 13. Here 13 says that n is above u - cut, so that so many slots cannot lie above the cut; its place is 0.
 * Accepted: with m = n / block, rounded up, which is how many blocks these slots make, and U = u - cut, `bytes` is
 *     12 + cut / 8 (rounded up) + 8 * m + (n - m) + U / 129 (rounded down) + U / 16385 (rounded down).
 * No record that slots_write makes with this u, block and cut, of slots of which n lie above the cut, is longer. Some lists reach it, others do not.
 * So a `room` of that length is never refused with 12. Reserve it, then write once, in place of a first call with no room that only tells the
 * length: the `length` that slots_write answers is what the record has taken of the room. */
enum slots_bound_field { SLOTS_BOUND_NUMBER, SLOTS_BOUND_PLACE, SLOTS_BOUND_BYTES, SLOTS_BOUND_FIELDS };
uint32_t slots_bound(uint32_t u, uint32_t block, uint32_t cut, uint32_t n, uint64_t *out, size_t out_len);

/* slots_write: the record of one list, at the front of `room`.
 *
 * `block` is the B of the index to come. `slots` are the list, lowest first, each once; there may be none. Those up to `cut` are packed
 * as bits and the others as gaps, which changes the bytes and the cost of a search, never what the list holds: 0 is gaps alone, u bits alone.
 * Bits beyond the cut, in the last byte of bits, are 0. In an index with this u and block, it is the only record with this cut and these slots
 * that slots_look accepts.
 * Refuses, in this order: 4 (u or block), 15, 13, 12 (place: the length of the record; so a `room` of length 0 is a way to learn it. One of as many
 * bytes as slots_bound tells is never too small).
 * Accepted: the first `length` bytes of `room` are the record; every byte behind them is as it was. */
enum slots_write_field { SLOTS_WRITE_NUMBER, SLOTS_WRITE_PLACE, SLOTS_WRITE_LENGTH, SLOTS_WRITE_FIELDS };
uint32_t slots_write(uint32_t u, uint32_t block, uint32_t cut, const uint32_t *slots, size_t slots_len,
                     uint8_t *room, size_t room_len, uint64_t *out, size_t out_len);

/* slots_close: an index out of the records at the front of `room`.
 *
 * `u` and `block` are those that the records were written with. The records stand in the first `total` bytes with nothing between them, and
 * `starts` says where each begins, the first being 0; their order numbers the lists.
 * Refuses, in this order: 4 (u, block, or how many starts), 1 (of the finished index), 12 (place: its length), 5, and then 6 to 9 and 17 as
 * slots_look would. Accepted: directory and trailer stand behind the records, the first `length` bytes of `room` are an index that slots_look
 * accepts, and every other byte is as it was. */
enum slots_close_field { SLOTS_CLOSE_NUMBER, SLOTS_CLOSE_PLACE, SLOTS_CLOSE_LENGTH, SLOTS_CLOSE_FIELDS };
uint32_t slots_close(uint8_t *room, size_t room_len, uint32_t u, uint32_t block, uint32_t total,
                     const uint32_t *starts, size_t starts_len, uint64_t *out, size_t out_len);

/* The words for a number, as in the list above, without their place. For people: nothing is proved of it. */
static inline const char *slots_reason(uint32_t number) {
    static const char *const reasons[] = {
        "accepted",
        "the index has fewer than 24 or more than 16,777,216 bytes",
        "the index does not end in the tag SLOT",
        "the edition is not 1",
        "u is not in 1..1,048,576, B not in 1..128, or the number of lists not in 1..4,096",
        "the parts do not make up the size of the index, the first start is not 0, or a record has fewer than 12 bytes",
        "the head of a record does not fit u or the size of the record",
        "the codes of a block do not lie where they should",
        "a code is damaged, or bytes remain behind the codes of a block",
        "a slot is above u or out of order",
        "the question has no name, or more than 16",
        "there is no list of that name",
        "the room is too small",
        "the slots to be written do not rise strictly within 1..u, or more are to lie above the cut than there are slots there",
        "the way is neither 0 (plain) nor 1 (by skips)",
        "the cut is above u",
        "the slot asked about is not in 1..u",
        "a bit beyond the cut is set",
    };
    return number < sizeof reasons / sizeof reasons[0] ? reasons[number] : "a number that this header does not know";
}

#ifdef __cplusplus
}
#endif
#endif
