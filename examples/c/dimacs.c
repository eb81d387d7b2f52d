/* Five vertices in a ring, read from a text in the DIMACS form, whose vertices count from 1. Without its last line, and with half of that line, it is refused. */
#include <inttypes.h>
#include <stdio.h>
#include <string.h>

#include "kadvisk.h"

int main(void) {
    const char *graph = "c five vertices in a ring\np edge 5 5\ne 1 2\ne 2 3\ne 3 4\ne 4 5\ne 5 1\n";
    uint64_t rows[64];

    kadvisk_outcome dimacs = kadvisk_read_dimacs((const uint8_t *)graph, strlen(graph), rows, 64);
    printf("DIMACS: n %zu, row 0 %02" PRIX64 "\n", dimacs.value, rows[0]);
    for (size_t less = 6; less >= 3; less -= 3) {
        dimacs = kadvisk_read_dimacs((const uint8_t *)graph, strlen(graph) - less, rows, 64);
        printf("R%02zu %016zX\n", dimacs.number, dimacs.value);
    }
    return 0;
}
