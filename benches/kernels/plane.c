#include <stdint.h>
#pragma balance range t 0 1000
#pragma balance range n 1 2048
void plane(int64_t t, int64_t n, uint64_t A[n][n], uint64_t B[n][n]) {
  for (int64_t s = 0; s < t; s++) {
    for (int64_t i = 1; i < n - 1; i++)
      for (int64_t j = 1; j < n - 1; j++)
        B[i][j] = A[i - 1][j] + A[i][j - 1] + A[i][j] + A[i][j + 1] + A[i + 1][j];
    for (int64_t i = 1; i < n - 1; i++)
      for (int64_t j = 1; j < n - 1; j++)
        A[i][j] = B[i][j];
  }
}
