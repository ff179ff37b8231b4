/* Writes what is wrong with some tables of three radios, as the README has it, and that a handheld
 * is no fault. Compiled as C and as C++, so that the header is right for both. */
#include <stdio.h>

#include "fogsignaller.h"

enum { RADIOS = 3, CELLS = RADIOS * RADIOS };

/* Three radios in a row, 0-1-2, but for the fault. */
static const uint8_t tables[][CELLS] = {
    {0, 1, 0, 0, 0, 1, 0, 1, 0}, /* radio 1 knows nothing of its link to radio 0 */
    {0, 1, 0, 1, 0, 7, 0, 1, 0}, /* a typing error */
    {0, 1, 0, 7, 2, 1, 0, 1, 0}, /* both: the first cell in row order is told */
    {0, 1, 0, 1, 1, 1, 0, 1, 0}, /* no fault: radio 1 is a handheld */
};

static uint8_t log_bytes[FOG_LOG_ALWAYS_ENOUGH];
static uint8_t paths[FOG_PATHS_ALWAYS_ENOUGH];
static uint8_t cut[FOG_CUT_ALWAYS_ENOUGH];

/* Writes what is wrong with the first bad cell of a table of n radios. */
static void write_fault(size_t n, struct fog_outcome found) {
    size_t row = found.place / n, column = found.place % n;
    printf("refused %zu at %zu: ", found.refusal, found.place);
    switch (found.refusal) {
    case FOG_CELL_VALUE:
        printf("the cell of radios %zu and %zu is not 0 or 1\n", row, column);
        break;
    case FOG_CELL_MIRROR:
        printf("radios %zu and %zu do not say the same of their link\n", row, column);
        break;
    default:
        printf("not for a cell\n");
    }
}

int main(void) {
    for (size_t at = 0; at < sizeof tables / sizeof tables[0]; at++) {
        struct fog_outcome found =
            fog_survey(RADIOS, tables[at], CELLS, 0, 2, 1, log_bytes, sizeof log_bytes, paths,
                       sizeof paths, cut, sizeof cut);
        if (found.refusal == FOG_ACCEPTED)
            printf("accepted: %zu of 1 paths\n", found.paths);
        else
            write_fault(RADIOS, found);
    }
    return 0;
}
