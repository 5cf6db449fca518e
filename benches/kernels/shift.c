#include <stdint.h>
#pragma balance range n 1 4194304
void shift(int64_t n, uint64_t A[n]) {
  for (int64_t i = 0; i < n - 1; i++)
    A[i + 1] = A[i] + 1;
}
