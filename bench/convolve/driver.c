/* Times three convolutions on the same lists in one run, in turns, and prints medians as ratios to the plain C loop.
 *
 * `dense N M`: lists without zeros. `census P M`: a whole census, [UNIT] pushed P times with a binomial list of M. */
#include <stddef.h>
#include <stdint.h>
#include <stdio.h>
#include <stdlib.h>
#include <string.h>
#include <time.h>

#define UNIT ((uint64_t)1 << 60)
#define ROUNDS 21

typedef void kernel(const uint64_t *, size_t, const uint64_t *, size_t, uint64_t *, size_t);
kernel plain_convolve, rust_convolve, mss_convolve;
static kernel *const kernels[] = {plain_convolve, rust_convolve, mss_convolve};
static const char *const names[] = {"gcc -O2 plain", "rustc -O plain", "mss Plain"};

static double now(void) {
    struct timespec t;
    clock_gettime(CLOCK_PROCESS_CPUTIME_ID, &t);
    return t.tv_sec + t.tv_nsec * 1e-9;
}

static int by_size(const void *x, const void *y) {
    double a = *(const double *)x, b = *(const double *)y;
    return (a > b) - (a < b);
}

static void dense(uint64_t *list, size_t n) {
    for (size_t i = 0; i < n; i++)
        list[i] = UNIT / n - (i * 7919) % 1000;
}

static void binomial(uint64_t *list, size_t m) {
    double weight = 1;
    for (size_t k = 1; k < m; k++)
        weight *= 0.6;
    for (size_t k = 0; k < m; k++) {
        list[k] = (uint64_t)(weight * (double)(UNIT - 4096));
        weight = weight * (double)(m - 1 - k) / (double)(k + 1) * 0.4 / 0.6;
    }
}

static size_t run(kernel *f, int chain, size_t n, size_t m, uint64_t *a, uint64_t *b, uint64_t *out) {
    if (!chain) {
        f(a, n, b, m, out, n + m - 1);
        return n + m - 1;
    }
    uint64_t *value = a, *next = out;
    size_t len = 1;
    value[0] = UNIT;
    for (size_t p = 0; p < n; p++, len += m - 1) {
        f(value, len, b, m, next, len + m - 1);
        uint64_t *t = value;
        value = next;
        next = t;
    }
    if (value != out)
        memcpy(out, value, len * sizeof *out);
    return len;
}

int main(int count, char **words) {
    if (count != 4)
        return 2;
    int chain = !strcmp(words[1], "census");
    size_t n = strtoul(words[2], 0, 10), m = strtoul(words[3], 0, 10), room = (chain ? n * m : n + m) + 1;
    uint64_t *a = calloc(room, 8), *b = calloc(room, 8), *out = calloc(room, 8), *first = calloc(room, 8);
    double times[3][ROUNDS];
    chain ? binomial(b, m) : dense(b, m);
    if (!chain)
        dense(a, n);
    double products = chain ? (double)n * n * m * m / 2 : (double)n * m;
    size_t repeats = (size_t)(4e6 / products) + 1;
    for (int round = 0; round < ROUNDS; round++)
        for (int k = 0; k < 3; k++) {
            double start = now();
            size_t len = 0;
            for (size_t r = 0; r < repeats; r++)
                len = run(kernels[k], chain, n, m, a, b, out);
            times[k][round] = now() - start;
            if (k == 0)
                memcpy(first, out, len * sizeof *out);
            else if (memcmp(first, out, len * sizeof *out)) {
                printf("%s differs\n", names[k]);
                return 1;
            }
        }
    printf("%s %zu %zu:", words[1], n, m);
    for (int k = 0; k < 3; k++)
        qsort(times[k], ROUNDS, sizeof(double), by_size);
    for (int k = 0; k < 3; k++)
        printf("  %s %.2f", names[k], times[k][ROUNDS / 2] / times[0][ROUNDS / 2]);
    printf("\n");
    return 0;
}
