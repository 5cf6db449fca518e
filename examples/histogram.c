#include <stdint.h>
/* How many of the samples have each level: count[j] rises for each sample of level j. */
#pragma balance range n 1 1000
#pragma balance range m 1 1000
#pragma balance range b 1 64
void histogram(int64_t n, int64_t m, int64_t b, const uint64_t sample[n], const uint64_t level[m], uint64_t count[b]) {
  for (int64_t j = 0; j < b; j++)
    for (int64_t i = 0; i < n; i++)
      count[j] += (uint64_t)(level[sample[i]] == (uint64_t)j);
}
