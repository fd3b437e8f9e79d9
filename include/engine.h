/* The SAT engine as C sees it. docs/FORMAT.md says what a script and its answers are; this page says how to call.
 *
 * Link target/staticlib/libengine.a (x86-64 Linux, `tools/staticlib`): cc -Iinclude PROGRAM.c target/staticlib/libengine.a. bindings/c/planner.c is
 * a whole program. The library allocates nothing, keeps nothing between calls, reads no file and calls nothing but C's memset, so calls on different
 * slices may run at the same time.
 *
 * Slices. A slice is two arguments: a pointer to its first element and how many elements it has (not bytes). What the caller owes, and no proof can see:
 *   - the pointer is not null and is aligned for its type, also where the length is 0, and that many elements can be read (and written, if not const);
 *   - no slice that the engine writes (work, activities, out, and *refusal) overlaps another one;
 *   - nobody else writes any of them, or the script, during the call.
 * Nothing else is asked: any cells and any lengths end in an answer or a refusal.
 */
#ifndef ENGINE_H
#define ENGINE_H

#include <stddef.h>
#include <stdint.h>

#ifdef __cplusplus
extern "C" {
#endif

/* Why a script is turned back. The first that applies is given, in this order, but for a record's, which are judged 7, 8 (no count), 10, 8, 9, 11, record by
 * record. `place` is what engine_run returns; cells of the script count from 0. */
enum engine_refusal {
    ENGINE_ACCEPTED = 0,
    ENGINE_SHORT_HEADER = 1,     /* the script has 1 to 5 cells; place: its length */
    ENGINE_BAD_VARIABLES = 2,    /* V is not 1 to 4,096; place: 0 */
    ENGINE_BAD_LIMITS = 3,       /* C is over 65,535 (place 1), or L over 1,048,576 (place 2) */
    ENGINE_BAD_OPTIONS = 4,      /* mode over 2 (place 3), phase over 2 (place 4), or unit not 1 to 1,000 (place 5) */
    ENGINE_SHORT_WORK = 5,       /* work has under 32 V + 8 C + L + 64 cells; place: that number */
    ENGINE_SHORT_ACTIVITIES = 6, /* activities has under V elements; place: V */
    ENGINE_BAD_RECORD = 7,       /* a record's first cell is not 1 or 2; place: its cell */
    ENGINE_CUT_RECORD = 8,       /* a record runs past the script; place: the script's length */
    ENGINE_BAD_LITERAL = 9,      /* a literal is 2 V or more; place: its cell */
    ENGINE_BAD_COUNT = 10,       /* a count is over 2 V, or a clause's over 211; place: its cell */
    ENGINE_BAD_BUDGET = 11,      /* a budget is over 1,000,000; place: its cell */
    ENGINE_SHORT_OUT = 12,       /* out has under clauses + solves (V + 4) cells; place: that number, or 4,294,967,295 if it is more */
    /* 13 to 15 are refusals of loadsat's text, which this library does not read. Those below, and 2 before them, are engine_at_most's. */
    ENGINE_BAD_COUNTED = 18,     /* not 1 to 64 literals, or one is 2 V or more; place: 0 */
    ENGINE_SHARED_VARIABLE = 19, /* two literals share a variable, or a helper in use is among them or is V or more; place: 0 */
    ENGINE_SHORT_CLAUSES = 20    /* the slice is too short for the clauses; place: the length needed */
};

/* What a clause's out cell says. */
enum engine_clause {
    ENGINE_NO_MODEL = 0, /* taken, and the clauses are now known to have no model */
    ENGINE_TAKEN = 1,
    ENGINE_UNTAKEN = 2   /* not taken: no storage */
};

/* A solve's first out cell; the second is its conflicts, the third a count, and that many cells follow. */
enum engine_verdict {
    ENGINE_TRUE = 0,  /* the model: for each variable 0 (true) or 1 (false) */
    ENGINE_FALSE = 1, /* the final clause: negated assumptions */
    ENGINE_UNDEF = 2  /* one cell of cause */
};

/* Why a solve stopped. */
enum engine_cause {
    ENGINE_BUDGET = 1, /* the budget is spent */
    ENGINE_STORAGE = 2 /* no storage for a learnt clause */
};

/* Runs a script.
 *
 * If it is accepted, *refusal is 0 and the result is how many cells of out were written. The first 32 V + 8 C + L + 64 cells of work and the first V
 * activities are then 0; what they held before does not matter, and the rest of both, and of out, is as it was.
 * A script of no cells is accepted and writes nothing: the result is 0 and every slice, of any length, is as it was.
 * If it is refused, *refusal is its number, the result its place, and work, activities and out are as they were.
 *
 * "As they were" is proved of every cell, but of an activity that is a NaN only that it is still one: the proof's floats have a single NaN, without sign and payload. No code writes
 * the activities that are to stay, so their bits stay too; bindings/rust/check.rs looks at NaNs of several payloads. */
uint64_t engine_run(const uint32_t *script, size_t script_len,
                    uint32_t *work, size_t work_len,
                    double *activities, size_t activities_len,
                    uint32_t *out, size_t out_len,
                    uint32_t *refusal);

/* The work cells that a script of these V, C and L needs: 32 V + 8 C + L + 64. */
uint64_t engine_work_len(uint32_t v, uint32_t c, uint32_t l);

/* The out cells that an accepted script needs: clauses + solves (V + 4), so 0 of a script of no cells. 0 too if its header or a record is turned back; engine_run says why. */
uint64_t engine_out_len(const uint32_t *script, size_t script_len);

/* Writes clauses that say 'at most k of these literals are true' into out, as records of kind 1 for a script of V variables: Sinz's sequential counter.
 * It takes (n - 1) k helper variables, n being literals_len, from first_helper on, none if k is 0, n or more. Values of the literals extend to a model of
 * the clauses if and only if at most k are true; so add them to a script that names the helpers nowhere else.
 *
 * If it is accepted, *refusal is 0 and the result is how many cells of out were written; the rest of out is as it was.
 * If it is refused, *refusal is 2, 18, 19 or 20, the result its place, and out is as it was. The slices are as engine_run asks for them. */
uint64_t engine_at_most(uint32_t v,
                        const uint32_t *literals, size_t literals_len,
                        uint32_t k, uint32_t first_helper,
                        uint32_t *out, size_t out_len,
                        uint32_t *refusal);

/* The cells that the clauses for n literals take. 0 if n is over 64; engine_at_most says why. */
uint64_t engine_at_most_len(uint32_t n, uint32_t k);

#ifdef __cplusplus
}
#endif

#endif
