"""Makes the C program that times a source or a printed text as a compiler makes it.

    driver.py TEXT > MAIN.c
    gcc -std=gnu17 -O2 -w -I benches -o MAIN MAIN.c
    MAIN ROUNDS < DATA

It writes what `balance` writes, and on standard error the seconds of the fastest round.
"""
import os
import sys

import tree

FRONT = """\
#include "timed.h"

// The verdict of a printed text, by the word that it returned.
static void write_verdict(uint64_t word, int count, const char *const *names) {
  if (word == 0) printf("balanced");
  else printf(word >> 40 ? "no memory" : word >> 16 ? "index" : "fault");
  for (int k = 0; k < count; k++)
    if ((word | word >> 16) >> k & 1) printf(" %s", names[k]);
  printf("\\n");
}
"""
MINIMA = """
static inline uint64_t umin(uint64_t a, uint64_t b) { return a < b ? a : b; }
static inline uint64_t umax(uint64_t a, uint64_t b) { return a < b ? b : a; }
"""
MAIN = """
int main(int argc, char **argv) {{
  int rounds = argc > 1 ? atoi(argv[1]) : 1;
  double best = 0;
  uint64_t word = 0;
  static const char *const names[] = {{{names}}};
  read_data();
{read}
  for (int round = 0; round < rounds; round++) {{
{reset}
    double begin = processor();
    {call};
    double seconds = processor() - begin;
    if (round == 0 || seconds < best) best = seconds;
  }}
{write}
  {verdict};
  fprintf(stderr, "%.9f\\n", best);
  return 0;
}}
"""


def c_text(e):
    """A signed expression; the values of the parameters are in variables of another name."""
    if e[0] == "number":
        return f"{e[1]}"
    if e[0] == "name":
        return f"int_{e[1]}"
    parts = [c_text(part) for part in e[1:]]
    return f"({e[0]}{parts[0]})" if len(parts) == 1 else f"({parts[0]} {e[0]} {parts[1]})"


def main_of(unit, path):
    read = [f'  int64_t int_{x} = int_of("{x}");' for x in unit.ints]
    reset, write = [], []
    for x, constant, extents in unit.arrays:
        read.append(f"  uint64_t count_{x} = {' * '.join(f'(uint64_t)({c_text(e)})' for e in extents)};")
        read.append(f"  uint64_t *first_{x} = memory_for(count_{x}, sizeof *first_{x});")
        read.append(f"  uint64_t *cells_{x} = memory_for(count_{x}, sizeof *cells_{x});")
        read.append(f'  read_cells("{x}", count_{x}, first_{x});')
        reset.append(f"    memcpy(cells_{x}, first_{x}, count_{x} * sizeof *cells_{x});")
        if not constant:
            write.append(f'  write_cells("{x}", count_{x}, cells_{x});')
    arguments = [f"int_{x}" if x in unit.ints else f"(void *)cells_{x}" for x in unit.params]
    call = f"{unit.name}({', '.join(arguments)})"
    verdict = f"write_verdict(word, {len(unit.arrays)}, names)" if unit.printed else 'printf("plain\\n")'
    return FRONT + ("" if unit.printed else MINIMA) + f'#include "{os.path.abspath(path)}"\n' + MAIN.format(
        names=", ".join(f'"{a[0]}"' for a in unit.arrays) or '""', read="\n".join(read), reset="\n".join(reset),
        call=f"word = {call}" if unit.printed else call, write="\n".join(write), verdict=verdict)


if __name__ == "__main__":
    sys.stdout.write(main_of(tree.read(sys.argv[1]), sys.argv[1]))
