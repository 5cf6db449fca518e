#include <stdint.h>
/* Solves L x = b modulo 2^64, where L is a lower triangle with ones on its diagonal. */
#pragma balance range n 1 500
void solve(int64_t n, const uint64_t L[n][n], const uint64_t b[n], uint64_t x[n]) {
  for (int64_t i = 0; i < n; i++) {
    x[i] = b[i];
    for (int64_t j = 0; j < i; j++)
      x[i] -= L[i][j] * x[j];
  }
}
