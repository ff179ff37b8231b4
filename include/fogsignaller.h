/* Fogsignaller: surveys a map of radios for paths that share no radio between their ends.
 *
 * Two calls, each proved to leave exactly what the rules (docs/RULES.md) say, in every number and
 * every byte, for every input. They allocate nothing, keep nothing between calls and call back
 * nobody, so calls from several threads are fine as long as their buffers are different.
 *
 * `make library` builds target/libfogsignaller.a; `make install` puts it in place, with this header
 * and fogsignaller.pc for pkg-config. Link it with -lfogsignaller. Each call is a member of its own
 * there, so a program gets the calls that it makes and no other. It is for x86-64 (64-bit size_t).
 */
#ifndef FOGSIGNALLER_H
#define FOGSIGNALLER_H

/* The version of the header, the library, the command and the Rust package: one number for all. */
#define FOG_VERSION "3.0.0"

#include <stddef.h>
#include <stdint.h>

#ifdef __cplusplus
extern "C" {
#endif

/* Why a call was refused. They are tried in this order and the first that holds is given: those up
 * to FOG_LIST_TOO_SHORT by fog_survey, and 1, 20 and 21 by fog_routes.
 *
 * FOG_CELL_VALUE and FOG_CELL_MIRROR say what is wrong with the first bad cell of the table in row
 * order. place is that cell, counted from 0: its row is radio place/n and its column radio place%n.
 * Its mirror cell has these two the other way round and must be the same. Both are tried at one
 * cell before the next, so an earlier cell is told whatever its fault.
 *
 * For callers of 2.x: a 1 on the diagonal is no fault any more but a handheld, see fog_survey, and
 * has no refusal. For callers of 1.x: FOG_CELL, which was 3, has become these two. Where you
 * compared with it, compare with both; place is set for each of them. */
enum fog_refusal {
    FOG_ACCEPTED = 0,
    FOG_NUMBER_OF_RADIOS = 1, /* n is below 2 or above 64 */
    FOG_TABLE_LENGTH = 2,     /* table_len is not n*n */
    FOG_CELL_VALUE = 3,       /* the cell holds something other than 0 or 1 */
    FOG_CELL_MIRROR = 13,     /* the cell differs from its mirror cell, as where one radio says that
                                 the two are linked and the other that they are not */
    FOG_TOO_MANY_LINKS = 4,   /* more than 256 links */
    FOG_ENDS = 5,             /* s or t is not below n, or they are equal */
    FOG_WANTED = 6,           /* k is 0 or above 8 */
    FOG_LOG_TOO_SHORT = 7,    /* log_len is below 4*(2k+1)*A */
    FOG_LIST_TOO_SHORT = 8,   /* paths_len is below n-2+3k, or cut_len is below k */

    FOG_ROUTES_TOO_SHORT = 20, /* routes_len is below n */
    FOG_PATH_LIST = 21         /* count is above 8, or paths does not hold that many disjoint lists
                                  of two or more different radios below n with the same first and
                                  the same last */
};

/* The kinds of message in the log. */
enum fog_kind {
    FOG_PDT = 1,   /* path discovery token */
    FOG_PDT_B = 2, /* the token comes back: no path that way */
    FOG_PMT = 3,   /* path marker token: the step's mark is reversed */
    FOG_DONE = 4   /* walks each path once after the last round */
};

/* What a radio is to the paths. */
enum fog_role {
    FOG_OFF_PATHS = 0, /* on no path */
    FOG_ON_PATH = 1,   /* on a path, between its ends */
    FOG_SOURCE = 2,    /* s, where the paths begin */
    FOG_SINK = 3       /* t, where the paths end */
};

/* How the cut list names the direct link between s and t. */
#define FOG_DIRECT_LINK 255

/* Lengths that are enough for every accepted call. */
#define FOG_LOG_ALWAYS_ENOUGH 39032 /* 4*17*574: k is at most 8 and A at most 574 */
#define FOG_PATHS_ALWAYS_ENOUGH 86  /* 62 radios inside paths, and a length and two ends for 8 */
#define FOG_CUT_ALWAYS_ENOUGH 8     /* one item a path */
#define FOG_ROUTES_ALWAYS_ENOUGH 64 /* one record a radio */

/* The numbers that a survey returns. After a refusal the three counts are 0. */
struct fog_outcome {
    size_t refusal;  /* an enum fog_refusal; 0 if the call was accepted */
    size_t place;    /* the bad cell for FOG_CELL_VALUE and FOG_CELL_MIRROR, else 0 */
    size_t paths;    /* how many paths were found: k, or all there are where there are fewer */
    size_t rounds;   /* how many rounds were started */
    size_t messages; /* how many messages were sent; the log's used bytes divided by 4 */
};

/* Finds up to k paths from radio s to radio t that share no radio but these two.
 *
 * n      the number of radios, 2 to 64; they are numbered from 0.
 * table  n*n bytes, row by row: cell i*n+j is 1 if radios i and j are linked, else 0. Symmetric,
 *        at most 256 links. Cell i*n+i is no link: it is 1 if radio i is a handheld, which does not
 *        pass on what it hears, else 0. A handheld stands inside no path; as s or t it is an
 *        ordinary radio. The table is only read.
 * log    gets every message in the order sent, four bytes each: kind, round, sending half,
 *        receiving half. Radio v's in half is number 2v, its out half 2v+1. It must have room for
 *        4*(2k+1)*A bytes, where
 *            A = 2m - deg(s) - deg(t) + (1 if s and t are linked, else 0) + n - 2 - h
 *        with m the number of links, deg(v) the number of radios linked to v and h the number of
 *        handhelds other than s and t.
 *        FOG_LOG_ALWAYS_ENOUGH bytes are enough for every call. Where A is 0 no byte is needed.
 * paths  gets, for each path, its number of radios and then the radios from s to t. It must have
 *        room for n-2+3k bytes.
 * cut    gets, where fewer than k paths exist, one byte a path: a radio, or FOG_DIRECT_LINK. Every
 *        path from s to t in the map holds one of these radios or is the direct link that the cut
 *        names. Where k paths were found the cut is empty. It must have room for k bytes.
 *
 * Every byte of the three buffers is written: those past the used ones become 0, and a refused
 * call leaves nothing but zeros. What they held before does not matter.
 *
 * The table and the three buffers must not overlap one another, not even in one byte; the call is
 * proved for buffers that stand apart, and nothing is promised for others. No pointer may be null,
 * not even one whose length is 0: pass any other pointer there, for example the address of a local
 * variable. Each pointer must lead to as many bytes as its length says. No alignment is needed.
 */
struct fog_outcome fog_survey(size_t n, const uint8_t *table, size_t table_len, size_t s, size_t t,
                              size_t k, uint8_t *log, size_t log_len, uint8_t *paths,
                              size_t paths_len, uint8_t *cut, size_t cut_len);

/* The record that one radio is loaded with. Look at the role first: 0 is a radio too, so a 0 in
 * before or after says something only where the role is FOG_ON_PATH. Elsewhere all three are 0. */
typedef struct fog_route {
    uint8_t role;   /* an enum fog_role */
    uint8_t path;   /* the number of its path, from 1 */
    uint8_t before; /* the radio before it, towards s */
    uint8_t after;  /* the radio after it, towards t */
} fog_route;

/* Turns a path list into one record for each radio.
 *
 * n       the number of radios, 2 to 64; they are numbered from 0.
 * count   the number of paths, at most 8. With no paths all n records become 0.
 * paths   for each path, its number of radios and then the radios from s to t, as fog_survey leaves
 *         them. All paths have the same s and the same t and share no other radio, and one of them
 *         at most has no radio in between. Bytes past the last path are not read.
 * routes  gets the record of radio v at place v. It must have room for n records: routes_len counts
 *         records, not bytes. Those past n stay as they were.
 *
 * It returns an enum fog_refusal: 0 if the call was accepted, else 1, 20 or 21. A refused call
 * changes no record.
 *
 * paths and routes must not overlap, and the pointers must be as those of fog_survey.
 */
size_t fog_routes(size_t n, size_t count, const uint8_t *paths, size_t paths_len, fog_route *routes,
                  size_t routes_len);

#ifdef __cplusplus
}
#endif

#endif
