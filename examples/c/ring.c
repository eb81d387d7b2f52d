/* Five vertices in a ring: tells how loose a set is, takes the core at two floors, lists the maximal 2-plexes of three or more vertices, and again with a
 * silent one, finds the largest that holds a vertex, keeps the list in a book while an edge is added, and writes and reads the sheet. Beside a sixth vertex
 * that nobody linked the list is the same, and there is no sheet. */
#include <inttypes.h>
#include <stdio.h>
#include <string.h>

#include "kadvisk.h"

static void refusal(size_t number, size_t value) {
    printf("R%02zu %016zX\n", number, value);
}

int main(void) {
    const uint64_t ring[5] = {0x12, 0x05, 0x0A, 0x14, 0x09};
    const uint64_t unlinked[6] = {0x12, 0x05, 0x0A, 0x14, 0x09, 0};
    uint64_t slots[8], rows[64];
    uint8_t text[1112];

    printf("07 is a k-plex from k = %" PRIu64 " on\n", kadvisk_looseness(ring, 5, 0x07).found);
    printf("is 07 a maximal 2-plex: %" PRIu64 "\n", kadvisk_is_maximal(ring, 5, 2, 0x07).found);
    for (size_t floor = 4; floor <= 5; floor++) {
        kadvisk_core_outcome core = kadvisk_core(ring, 5, 2, floor);
        printf("core at floor %zu: %02" PRIX64 ", passes %zu\n", floor, core.core, core.passes);
    }
    printf("reach of 0: %02" PRIX64 "\n", kadvisk_reach(ring, 5, 0).found);

    kadvisk_outcome list = kadvisk_list(ring, 5, 2, 3, 0, slots, 8);
    if (list.number != 0) {
        refusal(list.number, list.value);
        return 1;
    }
    for (size_t i = 0; i < list.value; i++) {
        printf("%02" PRIX64 "\n", slots[i]);
    }

    /* too few slots: the refusal gives the exact number */
    list = kadvisk_list(ring, 5, 2, 3, 0, slots, 4);
    refusal(list.number, list.value);

    /* 08 makes vertex 3 silent: a set that holds it has two members that count; 20 would be a sixth vertex */
    list = kadvisk_list(ring, 5, 2, 3, 0x08, slots, 8);
    printf("with vertex 3 silent: %zu\n", list.value);
    for (size_t i = 0; i < list.value; i++) {
        printf("%02" PRIX64 "\n", slots[i]);
    }
    list = kadvisk_list(ring, 5, 2, 3, 0x20, slots, 8);
    refusal(list.number, list.value);

    /* 08 forces vertex 3 */
    kadvisk_outcome largest = kadvisk_largest(ring, 5, 2, 0x08);
    printf("largest 2-plex with vertex 3: %02" PRIX64 ", size %zu\n", largest.found, largest.value);

    /* a book: the ring in rows that may change, and its list; 0 and 2 become adjacent, and a second time that is refused */
    memcpy(rows, ring, sizeof ring);
    list = kadvisk_list(rows, 5, 2, 3, 0, slots, 8);
    kadvisk_outcome change = kadvisk_change(rows, 5, 2, 3, 0, 0, 2, true, slots, 8);
    printf("before %zu, with the edge 0-2 %zu\n", list.value, change.value);
    for (size_t i = 0; i < change.value; i++) {
        printf("%02" PRIX64 "\n", slots[i]);
    }
    change = kadvisk_change(rows, 5, 2, 3, 0, 0, 2, true, slots, 8);
    refusal(change.number, change.value);

    kadvisk_outcome sheet = kadvisk_write_sheet(ring, 5, 2, 3, 0x08, text, sizeof text);
    fwrite(text, 1, sheet.value, stdout);
    kadvisk_read_outcome read = kadvisk_read_sheet(text, sheet.value, rows, 64);
    printf("n %zu, k %zu, q %zu, silent %02" PRIX64 "\n", read.vertices, read.slack, read.floor, read.silent);

    /* a sixth vertex whose row is 0: the rows are listed, and the sheet is refused with that row */
    list = kadvisk_list(unlinked, 6, 2, 3, 0, slots, 8);
    printf("beside an unlinked vertex: %zu\n", list.value);
    sheet = kadvisk_write_sheet(unlinked, 6, 2, 3, 0, text, sizeof text);
    refusal(sheet.number, sheet.value);
    return 0;
}
