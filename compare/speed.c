/* speed HERE OTHER: how long slots_count of one shared library takes beside that of another, on the same index, in one run.
 *
 * The index has one list, of bits alone: every slot that there can be has one, which makes 131,072 bytes. Both libraries must count it right. They
 * are called in turn, so many times in a row that a round takes some milliseconds, and a round gives one ratio. No time is printed: it would
 * only say something of the machine. */
#define _POSIX_C_SOURCE 200112L
#include <dlfcn.h>
#include <stdint.h>
#include <stdio.h>
#include <stdlib.h>
#include <string.h>
#include <time.h>

#include "slots.h"

enum { BITS = SLOTS_MOST_SLOTS / 8, HEAD = 12, INDEX = HEAD + BITS + 4 + 24, CALLS = 500, ROUNDS = 101 };

typedef uint32_t counting(const uint8_t *, size_t, uint32_t, uint64_t *, size_t);
extern counting slots_count; /* as the header has it, or this does not compile */

static uint8_t index_bytes[INDEX];

static uint8_t *put(uint8_t *at, uint32_t number) {
    for (int i = 0; i < 4; i++) at[i] = (uint8_t)(number >> 8 * i);
    return at + 4;
}

/* Makes the index, with about half of its bits set, and tells how many are. */
static uint64_t make(void) {
    uint64_t set = 0, state = 88172645463325252u;
    put(index_bytes, SLOTS_MOST_SLOTS);
    for (int i = 0; i < BITS; i++) {
        state ^= state << 13, state ^= state >> 7, state ^= state << 17;
        index_bytes[HEAD + i] = (uint8_t)(state >> 32);
        for (int bit = 0; bit < 8; bit++) set += index_bytes[HEAD + i] >> bit & 1;
    }
    uint8_t *at = put(index_bytes + HEAD + BITS, 0);
    const uint32_t trailer[] = {1, SLOTS_MOST_SLOTS, 128, 1, HEAD + BITS};
    for (int i = 0; i < 5; i++) at = put(at, trailer[i]);
    memcpy(at, "SLOT", 4);
    return set;
}

static counting *load(const char *path) {
    void *library = dlopen(path, RTLD_NOW);
    void *symbol = library == NULL ? NULL : dlsym(library, "slots_count");
    if (symbol == NULL) fprintf(stderr, "speed: %s\n", dlerror()), exit(2);
    counting *count;
    memcpy(&count, &symbol, sizeof count);
    return count;
}

static void must_count(counting *count, uint64_t set, const char *path) {
    uint64_t out[SLOTS_COUNT_FIELDS];
    if (count(index_bytes, INDEX, 0, out, SLOTS_COUNT_FIELDS) == SLOTS_ACCEPTED && out[SLOTS_COUNT_COUNT] == set) return;
    fprintf(stderr, "speed: %s counts otherwise\n", path);
    exit(1);
}

static double took(counting *count) {
    struct timespec from, to;
    uint64_t out[SLOTS_COUNT_FIELDS];
    clock_gettime(CLOCK_MONOTONIC, &from);
    for (int i = 0; i < CALLS; i++) count(index_bytes, INDEX, 0, out, SLOTS_COUNT_FIELDS);
    clock_gettime(CLOCK_MONOTONIC, &to);
    return (double)(to.tv_sec - from.tv_sec) + 1e-9 * (double)(to.tv_nsec - from.tv_nsec);
}

static int by_size(const void *a, const void *b) {
    double x = *(const double *)a, y = *(const double *)b;
    return (x > y) - (x < y);
}

int main(int argc, char **argv) {
    if (argc != 3) return fprintf(stderr, "speed: expected two shared libraries\n"), 2;
    counting *here = load(argv[1]), *other = load(argv[2]);
    uint64_t set = make();
    must_count(here, set, argv[1]);
    must_count(other, set, argv[2]);
    double ratios[ROUNDS];
    for (int i = 0; i < ROUNDS; i++) {
        /* Neither is always the one behind the other. */
        double first = took(i % 2 == 0 ? here : other), second = took(i % 2 == 0 ? other : here);
        ratios[i] = i % 2 == 0 ? second / first : first / second;
    }
    qsort(ratios, ROUNDS, sizeof ratios[0], by_size);
    printf("the other takes %.2f times as long (the middle half of %d rounds: %.2f to %.2f)\n", ratios[ROUNDS / 2], ROUNDS, ratios[ROUNDS / 4], ratios[ROUNDS - 1 - ROUNDS / 4]);
    return 0;
}
