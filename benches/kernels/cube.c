#include <stdint.h>
#pragma balance range n 1 161
void cube(int64_t n, const uint64_t A[n][n][n], uint64_t B[n][n][n]) {
  for (int64_t i = 1; i < n - 1; i++)
    for (int64_t j = 1; j < n - 1; j++)
      for (int64_t k = 1; k < n - 1; k++)
        B[i][j][k] = A[i][j][k] + A[i - 1][j][k] + A[i + 1][j][k] + A[i][j - 1][k] + A[i][j + 1][k]
                   + A[i][j][k - 1] + A[i][j][k + 1];
}
