/* Runs the cases of a file through the library, in slices filled with noise, and compares all that the slices hold afterwards.
 * usage: check FILE. A line of FILE: name | script cells | out cells; lines with # are comments. */
#include <inttypes.h>
#include <stdio.h>
#include <stdlib.h>
#include <string.h>

#include "engine.h"

#define EXTRA 8 /* elements behind what is asked for: they must stay as they were */

static uint32_t noise(size_t i) { return (uint32_t)(i % 65521) * 65537 + 7; }

static void *some(size_t n, size_t size) {
    void *p = malloc((n + 1) * size);
    if (!p) {
        fputs("no memory\n", stderr);
        exit(2);
    }
    return p;
}

static uint32_t *cells(size_t n) {
    uint32_t *s = some(n, sizeof *s);
    for (size_t i = 0; i < n; i++) s[i] = noise(i);
    return s;
}

/* The numbers of a field, up to its end or a bar. */
static uint32_t *numbers(const char *text, size_t *n) {
    uint32_t *s = some(strlen(text), sizeof *s);
    char *end;
    for (*n = 0;; text = end) {
        unsigned long x = strtoul(text, &end, 10);
        if (end == text) return s;
        s[(*n)++] = (uint32_t)x;
    }
}

/* Whether the first n cells are the wanted ones (0 if there are none given), and the others noise. */
static int as_wanted(const uint32_t *s, size_t len, const uint32_t *want, size_t n) {
    for (size_t i = 0; i < len; i++)
        if (s[i] != (i < n ? (want ? want[i] : 0) : noise(i))) return 0;
    return 1;
}

/* A script of no cells is a run that writes nothing, whatever is lent. */
static int holds_none(size_t work_len, size_t activities_len, size_t out_len) {
    uint32_t *script = cells(0), *work = cells(work_len), *out = cells(out_len), refusal = 99;
    double *activities = some(activities_len, sizeof *activities);
    for (size_t i = 0; i < activities_len; i++) activities[i] = noise(i);
    uint64_t written = engine_run(script, 0, work, work_len, activities, activities_len, out, out_len, &refusal);
    int ok = refusal == ENGINE_ACCEPTED && written == 0 && engine_out_len(script, 0) == 0;
    ok = ok && as_wanted(work, work_len, NULL, 0) && as_wanted(out, out_len, NULL, 0);
    for (size_t i = 0; i < activities_len; i++) ok = ok && activities[i] == noise(i);
    free(script);
    free(work);
    free(out);
    free(activities);
    return ok;
}

static int holds(const uint32_t *script, size_t n, const uint32_t *want, size_t count) {
    if (n == 0) return count == 0 && holds_none(0, 0, 0) && holds_none(100, EXTRA, EXTRA);
    if (n < 6) return 0;
    size_t vars = script[0], used = engine_work_len(script[0], script[1], script[2]);
    size_t work_len = used + EXTRA, activities_len = vars + EXTRA, out_len = engine_out_len(script, n) + EXTRA;
    uint32_t *work = cells(work_len), *out = cells(out_len), refusal = 99;
    double *activities = some(activities_len, sizeof *activities);
    for (size_t i = 0; i < activities_len; i++) activities[i] = noise(i);
    uint64_t written = engine_run(script, n, work, work_len, activities, activities_len, out, out_len, &refusal);
    int ok = refusal == ENGINE_ACCEPTED && written == count;
    /* with a cell of work too few it is refused, and all stays as the run left it */
    uint64_t place = engine_run(script, n, work, used - 1, activities, activities_len, out, out_len, &refusal);
    ok = ok && refusal == ENGINE_SHORT_WORK && place == used;
    ok = ok && as_wanted(out, out_len, want, count) && as_wanted(work, work_len, NULL, used);
    for (size_t i = 0; i < activities_len; i++) ok = ok && activities[i] == (i < vars ? 0.0 : noise(i));
    free(work);
    free(out);
    free(activities);
    return ok;
}

int main(int argc, char **argv) {
    static char line[1 << 20];
    size_t passed = 0, failed = 0;
    FILE *file = argc == 2 ? fopen(argv[1], "r") : NULL;
    if (!file) {
        fputs("usage: check FILE\n", stderr);
        return 2;
    }
    while (fgets(line, sizeof line, file)) {
        char *script_text = strchr(line, '|'), *out_text = script_text ? strchr(script_text + 1, '|') : NULL;
        if (line[0] == '#' || !out_text) continue;
        size_t n, count;
        uint32_t *script = numbers(script_text + 1, &n), *want = numbers(out_text + 1, &count);
        if (holds(script, n, want, count)) {
            passed++;
        } else {
            failed++;
            printf("FAILED %.*s\n", (int)(script_text - line), line);
        }
        free(script);
        free(want);
    }
    fclose(file);
    printf("C, %s: %zu passed, %zu failed\n", argv[1], passed, failed);
    return failed != 0 || passed == 0;
}
