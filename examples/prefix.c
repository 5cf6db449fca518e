#include <stdint.h>
/* The sum of all cells up to each one. */
#pragma balance range n 1 100000
void prefix(int64_t n, const uint64_t A[n], uint64_t S[n]) {
  uint64_t sum = 0;
  for (int64_t i = 0; i < n; i++) {
    sum += A[i];
    S[i] = sum;
  }
}
