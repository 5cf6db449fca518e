#include <stdint.h>
#include <stdlib.h>
static inline uint64_t umin(uint64_t a, uint64_t b) { return a < b ? a : b; }
static inline uint64_t umax(uint64_t a, uint64_t b) { return a < b ? b : a; }
static inline int64_t bal_min(int64_t a, int64_t b) { return a < b ? a : b; }
static inline int64_t bal_max(int64_t a, int64_t b) { return a < b ? b : a; }
static inline unsigned __int128 bal_wide(uint64_t h, uint64_t l) { return (unsigned __int128)h << 64 | l; }
#pragma balance version 1
#pragma balance range n 1 1000
uint64_t bal_fn_shift(int64_t n, uint64_t A[n]) {
  uint64_t bal_r0 = 0ull;
  uint64_t bal_w = 0ull;
  uint64_t bal_c0 = 0ull;
  uint64_t bal_c1 = 0ull;
  unsigned __int128 bal_k = 0;
  unsigned __int128 bal_def0 = 0;
  unsigned __int128 bal_use0 = 0;
  for (int64_t bal_i0 = 0; bal_i0 < n; bal_i0++) {
    bal_r0 = A[bal_i0];
    bal_c0 = 1ull;
    bal_c1 = 0ull;
    for (int64_t bal_l0 = 0; bal_l0 < n - 1; bal_l0++) {
      if (bal_l0 == bal_i0) {
        bal_c1 += bal_c0;
      }
      if (bal_l0 + 1 == bal_i0) {
        bal_c0 = 0ull;
      }
    }
    bal_k = (unsigned __int128)bal_c1;
    bal_def0 += (unsigned __int128)bal_r0 * bal_k;
  }
#pragma balance begin
  for (int64_t i = 0; i < n - 1; i++) {
    bal_r0 = A[i];
    bal_use0 += (unsigned __int128)bal_r0;
    bal_w = bal_r0 + 1ull;
    A[i + 1] = bal_w;
    bal_c0 = 0ull;
    bal_c1 = 0ull;
    for (int64_t bal_l0 = 0; bal_l0 < n - 1; bal_l0++) {
      if (bal_l0 == i + 1) {
        bal_c1 += bal_c0;
      }
      if (bal_l0 + 1 == i + 1) {
        if (bal_l0 == i) {
          bal_c0 = 1ull;
        } else {
          bal_c0 = 0ull;
        }
      }
    }
    bal_k = (unsigned __int128)bal_c1;
    bal_def0 += (unsigned __int128)bal_w * bal_k;
  }
  return (uint64_t)(bal_def0 != bal_use0) << 0;
}
