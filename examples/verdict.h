/* What the word says that an instrumented function returns. */
#ifndef VERDICT_H
#define VERDICT_H
#include <inttypes.h>
#include <stdint.h>
#include <stdio.h>

/* Says what was found, array by array, and gives 1; gives 0 where nothing was found. `arrays` has the names of the
   function's arrays, in the order of its parameters. */
static int told(uint64_t word, const char *const *arrays, unsigned count) {
  for (unsigned a = 0; a < count; a++) {
    if (word >> a & 1)
      printf("%s: a bit was flipped in what was read\n", arrays[a]);
    if (word >> (16 + a) & 1)
      printf("%s: an index from memory was out of range\n", arrays[a]);
  }
  if (word >> 40 & 1)
    printf("no memory for a table of use counts\n");
  return word != 0;
}

#endif
