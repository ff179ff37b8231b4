/* Surveys document 01's map Q through include/fogsignaller.h and writes its sheet, as a C program
 * would; the comparison holds it against the sheet that the document gives. Compiled as C and as
 * C++, so that the header is right for both. */
#include <stdio.h>
#include <string.h>

#include "fogsignaller.h"

enum { RADIOS = 8, SOURCE = 0, DESTINATION = 7, WANTED = 3, CAPTURE = 7 };

static const unsigned char links[][2] = {{0, 1}, {0, 4}, {1, 2}, {1, 6}, {2, 3},
                                         {2, 5}, {3, 4}, {3, 7}, {6, 7}};

static uint8_t table[RADIOS * RADIOS];
static uint8_t log_bytes[FOG_LOG_ALWAYS_ENOUGH];
static uint8_t paths[FOG_PATHS_ALWAYS_ENOUGH];
static uint8_t cut[FOG_CUT_ALWAYS_ENOUGH];

static struct fog_outcome survey(size_t wanted) {
    /* The call writes every byte; what was there must not show. */
    memset(log_bytes, 0xAA, sizeof log_bytes);
    memset(paths, 0xAA, sizeof paths);
    memset(cut, 0xAA, sizeof cut);
    return fog_survey(RADIOS, table, sizeof table, SOURCE, DESTINATION, wanted, log_bytes,
                      sizeof log_bytes, paths, sizeof paths, cut, sizeof cut);
}

static void write_paths(size_t number_of_paths) {
    const uint8_t *path = paths;
    for (size_t number = 1; number <= number_of_paths; number++) {
        size_t length = *path++;
        printf("path\t%zu", number);
        for (size_t place = 0; place < length; place++) printf("\t%d", *path++);
        printf("\n");
    }
}

static void write_cut(size_t items) {
    for (size_t item = 0; item < items; item++) {
        if (cut[item] == FOG_DIRECT_LINK)
            printf("cut\t%zu\tlink\n", item + 1);
        else
            printf("cut\t%zu\t%d\n", item + 1, cut[item]);
    }
}

int main(void) {
    for (size_t link = 0; link < sizeof links / sizeof links[0]; link++) {
        table[links[link][0] * RADIOS + links[link][1]] = 1;
        table[links[link][1] * RADIOS + links[link][0]] = 1;
    }
    struct fog_outcome refused = survey(0);
    if (refused.refusal != FOG_WANTED || paths[0] != 0) {
        printf("k = 0 gave refusal %zu, expected %d\n", refused.refusal, FOG_WANTED);
        return 1;
    }
    struct fog_outcome found = survey(WANTED);
    if (found.refusal != FOG_ACCEPTED) {
        printf("refused\t%zu\t%zu\n", found.refusal, found.place);
        return 1;
    }
    int is_full = found.paths == WANTED;
    printf("report\t%d\t%s\t%zu\t%zu\t%zu\n", CAPTURE, is_full ? "full" : "short", found.paths,
           found.rounds, found.messages);
    write_paths(found.paths);
    write_cut(is_full ? 0 : found.paths);
    return 0;
}
