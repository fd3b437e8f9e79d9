/* examples/planner.txt from a program: how to write a script, lend the slices and read the answers. */
#include <stdio.h>
#include <stdlib.h>

#include "engine.h"

enum { MATERIALS = 3, LINES = 3, VARS = MATERIALS * LINES + LINES, CLAUSES = 64, LITERALS = 512 };

static const char *const names[MATERIALS] = {"acid", "base", "coolant"};
static uint32_t script[1024];
static size_t length;

/* literals: a material is on a line, a line's valve is open, and what a literal denies */
static uint32_t on(int material, int line) { return 2 * (uint32_t)(material * LINES + line); }
static uint32_t valve(int line) { return 2 * (uint32_t)(MATERIALS * LINES + line); }
static uint32_t no(uint32_t literal) { return literal ^ 1; }

static void put(uint32_t cell) { script[length++] = cell; }

static void record(uint32_t kind, size_t count, const uint32_t *literals) {
    put(kind);
    put((uint32_t)count);
    for (size_t i = 0; i < count; i++) put(literals[i]);
}

static void one(uint32_t a) { record(1, 1, &a); }

static void either(uint32_t a, uint32_t b) {
    uint32_t both[] = {a, b};
    record(1, 2, both);
}

static void solve(size_t count, const uint32_t *assumptions) {
    record(2, count, assumptions);
    put(1000);
}

static void rules(void) {
    for (int m = 0; m < MATERIALS; m++) {
        uint32_t lines[LINES];
        for (int l = 0; l < LINES; l++) lines[l] = on(m, l);
        record(1, LINES, lines);
    }
    for (int m = 0; m < MATERIALS; m++)
        for (int l = 0; l < LINES; l++)
            for (int k = l + 1; k < LINES; k++) either(no(on(m, l)), no(on(m, k)));
    for (int l = 0; l < LINES; l++)
        for (int m = 0; m < MATERIALS; m++)
            for (int k = m + 1; k < MATERIALS; k++) either(no(on(m, l)), no(on(k, l)));
    one(no(on(0, 0))); /* line bans */
    one(no(on(2, 2)));
    for (int m = 0; m < 2; m++) /* acid and base are pumped */
        for (int l = 0; l < LINES; l++) either(no(on(m, l)), valve(l));
    either(no(valve(0)), no(valve(1))); /* one manifold */
}

/* Writes a solve's answer, and gives the cell behind it. */
static size_t show(const char *question, const uint32_t *out, size_t at) {
    const uint32_t *body = out + at + 3;
    uint32_t count = out[at + 2];
    printf("%s:", question);
    if (out[at] == ENGINE_TRUE)
        for (int m = 0; m < MATERIALS; m++)
            for (int l = 0; l < LINES; l++)
                if (body[on(m, l) / 2] == 0) printf(" %s on line %d", names[m], l + 1);
    if (out[at] == ENGINE_FALSE) fputs(count ? " no, since one of these must be:" : " no, whatever is asked for", stdout);
    if (out[at] == ENGINE_FALSE)
        for (uint32_t i = 0; i < count; i++) printf(" %s%u", body[i] % 2 ? "-" : "", body[i] / 2 + 1);
    if (out[at] == ENGINE_UNDEF) printf(" stopped, cause %u", body[0]);
    putchar('\n');
    return at + 3 + count;
}

int main(void) {
    const uint32_t header[] = {VARS, CLAUSES, LITERALS, 2, 2, 100};
    for (size_t i = 0; i < 6; i++) put(header[i]);
    rules();
    solve(0, NULL);
    solve(1, (uint32_t[]){on(1, 0)});
    solve(2, (uint32_t[]){no(valve(2)), on(2, 0)});
    one(no(valve(2)));
    solve(0, NULL);

    size_t work_len = engine_work_len(VARS, CLAUSES, LITERALS), out_len = engine_out_len(script, length);
    uint32_t *work = malloc(work_len * sizeof *work), *out = malloc(out_len * sizeof *out), refusal;
    double activities[VARS];
    if (!work || !out) return 2;
    uint64_t result = engine_run(script, length, work, work_len, activities, VARS, out, out_len, &refusal);
    if (refusal != ENGINE_ACCEPTED) {
        printf("refused %u, place %llu\n", refusal, (unsigned long long)result);
        return 1;
    }
    size_t at = 30; /* the first 30 cells are the answers to the rules */
    at = show("any loading", out, at);
    at = show("base on line 1", out, at);
    at = show("valve 3 shut, coolant on line 1", out, at);
    at = show("valve 3 shut for good", out, at + 1);
    free(work);
    free(out);
    return at != result;
}
