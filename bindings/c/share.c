/* share FILE: the slots that lists 0 and 1 of an index share, and what it cost to find them. */
#include <inttypes.h>
#include <stdio.h>

#include "slots.h"

static uint8_t index_bytes[SLOTS_MOST_BYTES + 1]; /* one more than an index may have, so that a longer file is refused with 1 */
static uint32_t slots[SLOTS_MOST_SLOTS];          /* as many as a rack may have, so that no question is refused with 12 */

static int refused(const uint64_t *out) {
    fprintf(stderr, "share: refused with %" PRIu64 ", place %" PRIu64 ": %s\n", out[0], out[1], slots_reason((uint32_t)out[0]));
    return 1;
}

int main(int argc, char **argv) {
    const uint32_t names[] = {0, 1};
    uint64_t out[SLOTS_ASK_FIELDS]; /* what slots_ask answers, and slots_look, which has fewer fields */
    if (argc != 2) return fprintf(stderr, "share: expected the path of an index\n"), 2;
    FILE *file = fopen(argv[1], "rb");
    size_t size = file == NULL ? 0 : fread(index_bytes, 1, sizeof index_bytes, file);
    if (file == NULL || ferror(file)) return perror(argv[1]), 2;
    fclose(file);

    if (slots_look(index_bytes, size, out, SLOTS_LOOK_FIELDS) != SLOTS_ACCEPTED) return refused(out);
    if (slots_ask(index_bytes, size, SLOTS_BY_SKIPS, names, 2, slots, SLOTS_MOST_SLOTS, out, SLOTS_ASK_FIELDS) != SLOTS_ACCEPTED) return refused(out);

    for (uint64_t i = 0; i < out[SLOTS_ASK_COUNT]; i++) printf("%" PRIu32 "\n", slots[i]);
    printf("%" PRIu64 " looks, %" PRIu64 " codes\n", out[SLOTS_ASK_LOOKS], out[SLOTS_ASK_CODES]);
    return 0;
}
