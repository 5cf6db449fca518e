#include <stdint.h>
/* Each inner cell becomes the sum of its neighbours, t times, by way of a second array. */
#pragma balance range t 0 1000
#pragma balance range n 2 1000
void stencil(int64_t t, int64_t n, uint64_t A[n], uint64_t B[n]) {
  for (int64_t s = 0; s < t; s++) {
    for (int64_t i = 1; i < n - 1; i++)
      B[i] = A[i - 1] + A[i + 1];
    for (int64_t i = 1; i < n - 1; i++)
      A[i] = B[i];
  }
}
