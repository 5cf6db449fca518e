#include <stdint.h>
#pragma balance range n 1 4194304
void sixteen(int64_t n, uint64_t A[n]) {
  for (int64_t i = 15; i < n - 1; i++)
    A[i + 1] = A[i] + A[i - 1] + A[i - 2] + A[i - 3] + A[i - 4] + A[i - 5] + A[i - 6] + A[i - 7] + A[i - 8] + A[i - 9]
             + A[i - 10] + A[i - 11] + A[i - 12] + A[i - 13] + A[i - 14] + A[i - 15] + 1;
}
