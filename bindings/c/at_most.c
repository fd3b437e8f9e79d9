/* The writer of 'at most k' from C: the clauses of one call, cell by cell, and a refusal that leaves the slice as it was. */
#include <inttypes.h>
#include <stdio.h>

#include "engine.h"

#define EXTRA 8

int main(void) {
    static const uint32_t literals[] = {0, 2, 4};
    static const uint32_t want[] = {1, 2, 1, 6, 1, 1, 9, 1, 2, 3, 10, 1, 2, 7, 10, 1, 3, 3, 7, 12, 1, 2, 9, 12, 1, 2, 3, 9, 1, 2, 5, 13};
    enum { NEEDED = sizeof want / sizeof *want };
    uint32_t out[NEEDED + EXTRA], refusal = 99;
    for (size_t i = 0; i < NEEDED + EXTRA; i++) out[i] = 77;
    int ok = engine_at_most_len(3, 2) == NEEDED;
    ok = ok && engine_at_most(7, literals, 3, 2, 3, out, NEEDED - 1, &refusal) == NEEDED && refusal == ENGINE_SHORT_CLAUSES;
    for (size_t i = 0; i < NEEDED + EXTRA; i++) ok = ok && out[i] == 77;
    ok = ok && engine_at_most(7, literals, 3, 2, 3, out, NEEDED + EXTRA, &refusal) == NEEDED && refusal == ENGINE_ACCEPTED;
    for (size_t i = 0; i < NEEDED + EXTRA; i++) ok = ok && out[i] == (i < NEEDED ? want[i] : 77);
    printf("C, at most k: %s\n", ok ? "as it should be" : "FAILED");
    return !ok;
}
