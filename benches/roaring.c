/* The same lists as CRoaring has them: each in the portable form, run-optimised, one behind the other, with the ends of all of them. As the library
 * does at every call, all lists are loaded first, by the reader that keeps to the bytes it is given, and validated where this version of CRoaring can. */
#include <roaring/roaring.h>
#include <roaring/roaring_version.h>
#include <stddef.h>
#include <stdint.h>
#include <stdlib.h>

enum { MOST_LISTS = 4096, MOST_NAMES = 16 };

/* Newer versions can validate a loaded list. ./bench tries to compile this with VALIDATES 1, and where that fails with 0. */
#ifndef VALIDATES
#define VALIDATES 0
#endif

static roaring_bitmap_t *held[MOST_LISTS];

/* Major, minor and revision, one byte each, and above them 1 where lists are validated. */
uint32_t bench_version(void) {
    return VALIDATES << 24 | ROARING_VERSION_MAJOR << 16 | ROARING_VERSION_MINOR << 8 | ROARING_VERSION_REVISION;
}

/* Packs a list, and tells how many bytes it takes; where there is no room, it only tells. */
size_t bench_pack(const uint32_t *slots, size_t count, char *room, size_t room_len) {
    roaring_bitmap_t *list = roaring_bitmap_of_ptr(count, slots);
    roaring_bitmap_run_optimize(list);
    size_t size = roaring_bitmap_portable_size_in_bytes(list);
    if (size <= room_len) roaring_bitmap_portable_serialize(list, room);
    roaring_bitmap_free(list);
    return size;
}

static int sound(const roaring_bitmap_t *list) {
#if VALIDATES
    const char *reason = NULL;
    return list != NULL && roaring_bitmap_internal_validate(list, &reason);
#else
    return list != NULL;
#endif
}

/* Loads all lists, and tells how many could be. */
static size_t load(const char *bytes, const uint64_t *ends, size_t lists) {
    uint64_t start = 0;
    for (size_t i = 0; i < lists; i++) {
        held[i] = roaring_bitmap_portable_deserialize_safe(bytes + start, ends[i] - start);
        if (!sound(held[i])) return i;
        start = ends[i];
    }
    return lists;
}

static void unload(size_t lists) {
    for (size_t i = 0; i < lists; i++) roaring_bitmap_free(held[i]);
}

/* What looking is here: all lists are loaded, and given back. 0 where all are sound. */
uint32_t bench_look(const char *bytes, const uint64_t *ends, size_t lists) {
    size_t loaded = load(bytes, ends, lists);
    unload(loaded);
    return loaded < lists;
}

/* A list, and how many slots it has. */
struct sized {
    uint64_t size;
    const roaring_bitmap_t *list;
};

static int by_size(const void *a, const void *b) {
    uint64_t x = ((const struct sized *)a)->size, y = ((const struct sized *)b)->size;
    return (x > y) - (x < y);
}

/* The slots that all lists named have. The smallest come first. */
static roaring_bitmap_t *common(const uint32_t *names, size_t count) {
    struct sized lists[MOST_NAMES] = {{0, NULL}};
    for (size_t i = 0; i < count; i++) lists[i] = (struct sized){roaring_bitmap_get_cardinality(held[names[i]]), held[names[i]]};
    qsort(lists, count, sizeof lists[0], by_size);
    if (count == 1) return roaring_bitmap_copy(lists[0].list);
    roaring_bitmap_t *found = roaring_bitmap_and(lists[0].list, lists[1].list);
    for (size_t i = 2; i < count; i++) roaring_bitmap_and_inplace(found, lists[i].list);
    return found;
}

/* A question: the slots that all lists named have, as an array, and how many they are. -1 where some list cannot be loaded. */
int64_t bench_ask(const char *bytes, const uint64_t *ends, size_t lists, const uint32_t *names, size_t count, uint32_t *slots) {
    size_t loaded = load(bytes, ends, lists);
    int64_t many = -1;
    if (loaded == lists) {
        roaring_bitmap_t *found = common(names, count);
        many = (int64_t)roaring_bitmap_get_cardinality(found);
        roaring_bitmap_to_uint32_array(found, slots);
        roaring_bitmap_free(found);
    }
    unload(loaded);
    return many;
}
