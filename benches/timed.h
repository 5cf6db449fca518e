// What the programs that the interpreter is measured against share: the rows of a data file on standard input, the
// rows of an output, and processor time.
#include <stdint.h>
#include <stdio.h>
#include <stdlib.h>
#include <string.h>
#include <time.h>

static void *memory_for(uint64_t count, uint64_t size) {
  void *memory = calloc(count ? count : 1, size);
  if (!memory) exit(2);
  return memory;
}

// The data file.
static char *data;

static void read_data(void) {
  size_t room = 1 << 16, length = 0, count;
  data = malloc(room);
  while (data && (count = fread(data + length, 1, room - length - 1, stdin)) > 0) {
    length += count;
    if (room - length < room / 2) data = realloc(data, room *= 2);
  }
  if (!data) exit(2);
  data[length] = 0;
}

// What stands behind `NAME = `.
static char *row_of(const char *name) {
  size_t length = strlen(name);
  for (char *row = data; row; row = strchr(row, '\n'), row = row ? row + 1 : NULL)
    if (strncmp(row, name, length) == 0 && strncmp(row + length, " = ", 3) == 0) return row + length + 3;
  exit(2);
}

static int64_t int_of(const char *name) { return strtoll(row_of(name), NULL, 10); }

static void read_cells(const char *name, uint64_t count, uint64_t *cells) {
  char *at = row_of(name), *end;
  for (uint64_t k = 0; k < count; k++, at = end) {
    cells[k] = strtoull(at, &end, 10);
    if (end == at) exit(2);
  }
}

static void write_cells(const char *name, uint64_t count, const uint64_t *cells) {
  printf("%s =", name);
  for (uint64_t k = 0; k < count; k++) printf(" %lu", cells[k]);
  printf("\n");
}

// The processor time of this process, in seconds.
static double processor(void) {
  struct timespec t;
  clock_gettime(CLOCK_PROCESS_CPUTIME_ID, &t);
  return t.tv_sec + 1e-9 * t.tv_nsec;
}
