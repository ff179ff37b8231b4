/* Makes many calls on a stack that was painted before, and tells how many bytes of it each kind of
 * call touched. The other half of bench/stack, which reads the machine code of this program.
 *
 * usage: stack FILE...    files of questions as bench/workloads writes them
 */
#include <stdio.h>
#include <stdlib.h>
#include <string.h>
#include <ucontext.h>

#include "fogsignaller.h"

enum { STACK_BYTES = 256 * 1024, PAINT = 0xA5 };

static uint8_t painted[STACK_BYTES] __attribute__((aligned(64)));
static ucontext_t here, there;

static uint8_t table[65 * 65], log_bytes[FOG_LOG_ALWAYS_ENOUGH], paths[FOG_PATHS_ALWAYS_ENOUGH],
    cut[FOG_CUT_ALWAYS_ENOUGH];
static size_t radios, source, destination, wanted;

typedef struct fog_outcome survey(size_t, const uint8_t *, size_t, size_t, size_t, size_t,
                                  uint8_t *, size_t, uint8_t *, size_t, uint8_t *, size_t);
static survey *measured;
static struct fog_outcome outcome;

/* The same shape of call with nothing in it: what is touched here is the caller's. */
__attribute__((noinline)) static struct fog_outcome
call_nothing(size_t n, const uint8_t *t, size_t tl, size_t s, size_t d, size_t k, uint8_t *l,
             size_t ll, uint8_t *p, size_t pl, uint8_t *c, size_t cl) {
    struct fog_outcome nothing = {0, 0, 0, 0, 0};
    (void)n, (void)t, (void)tl, (void)s, (void)d, (void)k, (void)l, (void)ll;
    (void)p, (void)pl, (void)c, (void)cl;
    return nothing;
}

static void call_on_painted_stack(void) {
    outcome = measured(radios, table, radios * radios, source, destination, wanted, log_bytes,
                       sizeof log_bytes, paths, sizeof paths, cut, sizeof cut);
}

/* How many bytes from the stack's upper end down to the lowest one that changed. */
static size_t bytes_touched(survey *which) {
    measured = which;
    memset(painted, PAINT, sizeof painted);
    getcontext(&there);
    there.uc_stack.ss_sp = painted;
    there.uc_stack.ss_size = sizeof painted;
    there.uc_link = &here;
    makecontext(&there, call_on_painted_stack, 0);
    swapcontext(&here, &there);
    size_t lowest = 0;
    while (lowest < sizeof painted && painted[lowest] == PAINT) lowest++;
    return sizeof painted - lowest;
}

int main(int count, char **words) {
    size_t calls = 0, most = 0, most_refused = 0;
    radios = 2;
    /* The return address is the call's own, and call_nothing has one too. */
    size_t callers_own = bytes_touched(call_nothing) - sizeof(void *);
    for (int word = 1; word < count; word++) {
        FILE *file = fopen(words[word], "rb");
        if (file == NULL) {
            fprintf(stderr, "stack: %s cannot be opened\n", words[word]);
            return 1;
        }
        uint8_t numbers[4];
        while (fread(numbers, 1, 4, file) == 4) {
            radios = numbers[0], source = numbers[1], destination = numbers[2], wanted = numbers[3];
            if (radios > 64 || fread(table, 1, radios * radios, file) != radios * radios) {
                fprintf(stderr, "stack: %s is not a file of questions\n", words[word]);
                return 1;
            }
            size_t own = bytes_touched(fog_survey) - callers_own;
            if (outcome.refusal != 0) {
                fprintf(stderr, "stack: a question was refused by number %zu\n", outcome.refusal);
                return 1;
            }
            if (own > most) most = own;
            table[0] = 2; /* a bad cell, so that the refusals are measured as well */
            own = bytes_touched(fog_survey) - callers_own;
            if (own > most_refused) most_refused = own;
            calls += 2;
        }
        fclose(file);
    }
    printf("%zu %zu %zu\n", calls, most, most_refused);
    return 0;
}
