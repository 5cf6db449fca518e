// The same from C++. A printed text is C, with arrays whose sizes are parameters, so a C compiler makes its object:
//   gcc -std=gnu17 -O2 -Wall -Wextra -Wno-unknown-pragmas -Wno-unused-function -c shift.guarded.c
//   g++ -std=c++17 -O2 -Wall -Wextra call.cpp shift.guarded.o -o call
#include "verdict.h"
#include <cstdio>
#include <vector>

extern "C" uint64_t bal_fn_shift(int64_t n, uint64_t *A);

int main() {
  static const char *const arrays[] = {"A"};
  std::vector<uint64_t> A{5, 0, 0, 0};
  if (told(bal_fn_shift(static_cast<int64_t>(A.size()), A.data()), arrays, 1))
    return 1;
  for (std::size_t k = 0; k < A.size(); k++)
    std::printf("%" PRIu64 "%c", A[k], k + 1 < A.size() ? ' ' : '\n');
}
