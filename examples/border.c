#include <stdint.h>
/* Blurs a picture with a border of its own value, and counts what is bright. */
#pragma balance range n 1 1000
#pragma balance range m 1 1000
void border(int64_t n, int64_t m, const uint64_t P[n][m], uint64_t Q[n][m], uint64_t bright[1]) {
  uint64_t frame = 255;
  uint64_t count = 0;
  for (int64_t i = 0; i < n; i++)
    for (int64_t j = 0; j < m; j++) {
      if (i >= 1 && i < n - 1 && j >= 1 && j < m - 1)
        Q[i][j] = (P[i - 1][j] + P[i + 1][j] + P[i][j - 1] + P[i][j + 1]) >> 2;
      else
        Q[i][j] = frame;
      count += (uint64_t)(Q[i][j] > 127);
    }
  bright[0] = count;
}
