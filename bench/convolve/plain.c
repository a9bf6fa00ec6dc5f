/* The yardstick: the convolution of two lists in parts of 2^60 by the plain double loop. */
#include <stddef.h>
#include <stdint.h>

void plain_convolve(const uint64_t *a, size_t n, const uint64_t *b, size_t m, uint64_t *out, size_t len) {
    for (size_t i = 0; i < len; i++) {
        size_t first = i < m ? 0 : i - (m - 1), last = i < n ? i + 1 : n;
        unsigned __int128 total = 0;
        for (size_t k = first; k < last; k++)
            total += (unsigned __int128)a[k] * b[i - k];
        out[i] = (uint64_t)(total >> 60);
    }
}
