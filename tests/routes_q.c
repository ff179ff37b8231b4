/* Surveys document 01's map Q through include/fogsignaller.h and writes the record of each radio,
 * as the README has it. Compiled as C and as C++, so that the header is right for both. */
#include <stdio.h>
#include <string.h>

#include "fogsignaller.h"

enum { RADIOS = 8, SOURCE = 0, DESTINATION = 7, WANTED = 3, RECORDS = RADIOS + 1 };

static const unsigned char links[][2] = {{0, 1}, {0, 4}, {1, 2}, {1, 6}, {2, 3},
                                         {2, 5}, {3, 4}, {3, 7}, {6, 7}};

static uint8_t table[RADIOS * RADIOS];
static uint8_t log_bytes[FOG_LOG_ALWAYS_ENOUGH];
static uint8_t paths[FOG_PATHS_ALWAYS_ENOUGH];
static uint8_t cut[FOG_CUT_ALWAYS_ENOUGH];

/* The list is one record too long; that one must stay, and after a refusal all of them. */
static int refusal_is(size_t expected, size_t n, size_t count, size_t records) {
    fog_route before[RECORDS], routes[RECORDS];
    memset(before, 0xAA, sizeof before);
    memset(routes, 0xAA, sizeof routes);
    size_t refusal = fog_routes(n, count, paths, sizeof paths, routes, records);
    size_t filled = refusal == FOG_ACCEPTED ? RADIOS : 0;
    int kept = memcmp(routes + filled, before + filled, (RECORDS - filled) * sizeof routes[0]) == 0;
    if (refusal == expected && kept) return 1;
    printf("%zu radios, %zu paths, %zu records: refusal %zu, expected %zu; the other records %s\n",
           n, count, records, refusal, expected, kept ? "stayed" : "were changed");
    return 0;
}

/* Writes the record of each of n radios. */
static int write_routes(size_t n, size_t count, const uint8_t *list, size_t list_len) {
    static const char *const roles[] = {"none", "on path", "source", "sink"};
    fog_route routes[FOG_ROUTES_ALWAYS_ENOUGH];
    size_t refusal = fog_routes(n, count, list, list_len, routes, FOG_ROUTES_ALWAYS_ENOUGH);
    if (refusal != FOG_ACCEPTED) {
        printf("refused %zu\n", refusal);
        return 1;
    }
    printf("radio  role     path  before  after\n");
    for (size_t radio = 0; radio < n; radio++) {
        fog_route route = routes[radio];
        printf("%5zu  %-7s  %4d  %6d  %5d\n", radio, roles[route.role], route.path, route.before,
               route.after);
    }
    return 0;
}

int main(void) {
    for (size_t link = 0; link < sizeof links / sizeof links[0]; link++) {
        table[links[link][0] * RADIOS + links[link][1]] = 1;
        table[links[link][1] * RADIOS + links[link][0]] = 1;
    }
    struct fog_outcome found =
        fog_survey(RADIOS, table, sizeof table, SOURCE, DESTINATION, WANTED, log_bytes,
                   sizeof log_bytes, paths, sizeof paths, cut, sizeof cut);
    if (!refusal_is(FOG_NUMBER_OF_RADIOS, 1, found.paths, RECORDS)) return 1;
    if (!refusal_is(FOG_ROUTES_TOO_SHORT, RADIOS, found.paths, RADIOS - 1)) return 1;
    if (!refusal_is(FOG_PATH_LIST, RADIOS, found.paths + 1, RECORDS)) return 1;
    if (!refusal_is(FOG_ACCEPTED, RADIOS, found.paths, RECORDS)) return 1;
    return write_routes(RADIOS, found.paths, paths, sizeof paths);
}
