#include <stdint.h>
/* Factors a matrix into a lower triangle with ones on its diagonal and an upper triangle, in place and modulo 2^64, where
   each pivot comes to 1. */
#pragma balance range n 1 500
void factor(int64_t n, uint64_t A[n][n]) {
  for (int64_t k = 0; k < n - 1; k++)
    for (int64_t i = k + 1; i < n; i++)
      for (int64_t j = k + 1; j < n; j++)
        A[i][j] = A[i][j] - A[i][k] * A[k][j];
}
