#include <stdint.h>
/* A sparse matrix times a vector. Row i has k entries, of which the j-th stands in column columns[i][j]; rows with fewer
   are filled up with zeros. */
#pragma balance range n 1 1000
#pragma balance range k 1 64
void sparse(int64_t n, int64_t k, const uint64_t columns[n][k], const uint64_t entries[n][k], const uint64_t x[n], uint64_t y[n]) {
  for (int64_t i = 0; i < n; i++) {
    y[i] = 0;
    for (int64_t j = 0; j < k; j++)
      y[i] += entries[i][j] * x[columns[i][j]];
  }
}
