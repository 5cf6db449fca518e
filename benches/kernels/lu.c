#include <stdint.h>
#pragma balance range n 1 2048
void lu(int64_t n, uint64_t A[n][n]) {
  for (int64_t k = 0; k < n - 1; k++)
    for (int64_t i = k + 1; i < n; i++)
      for (int64_t j = k + 1; j < n; j++)
        A[i][j] = A[i][j] - A[i][k] * A[k][j];
}
