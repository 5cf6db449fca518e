#include <stdint.h>
/* Adds the product of two matrices to a third. */
#pragma balance range n 1 500
void product(int64_t n, const uint64_t A[n][n], const uint64_t B[n][n], uint64_t C[n][n]) {
  for (int64_t i = 0; i < n; i++)
    for (int64_t j = 0; j < n; j++)
      for (int64_t k = 0; k < n; k++)
        C[i][j] += A[i][k] * B[k][j];
}
