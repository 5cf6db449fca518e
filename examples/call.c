/* Calls the instrumented function of shift.c in place of `shift`. shift.guarded.c is compiled by itself:
     gcc -std=gnu17 -O2 -Wall -Wextra -Wno-unknown-pragmas -Wno-unused-function call.c shift.guarded.c -o call */
#include "verdict.h"

uint64_t bal_fn_shift(int64_t n, uint64_t A[]);

int main(void) {
  static const char *const arrays[] = {"A"};
  uint64_t A[4] = {5, 0, 0, 0};
  if (told(bal_fn_shift(4, A), arrays, 1))
    return 1;
  for (int k = 0; k < 4; k++)
    printf("%" PRIu64 "%c", A[k], k < 3 ? ' ' : '\n');
  return 0;
}
