#!/usr/bin/env bash
# What real C makes of a printed text: prints examples/shift.c, compares that with examples/shift.guarded.c, and compiles
# it by gcc, and by clang where it is installed.
# - With the values of examples/shift.data it prints the cells and the returned word.
# - With each size up to 200 and cells of a generator it leaves what the source leaves, and returns 0.
# - It is called from C and from C++ as examples/call.c and examples/call.cpp show, which decode the word.
# - With one bit of one cell inverted before an access, by a line that is put into the text, it returns what is wanted.
# The argument is the program, if it isn't where `make build` leaves it.
set -eu
cd "$(dirname "$0")/.."
program=${1:-$PWD/bin/balance}
work=$(mktemp -d)
trap 'rm -rf "$work"' EXIT
flags='-std=gnu17 -O2 -Wall -Wextra -Wno-unknown-pragmas -Wno-unused-function -Werror'

"$program" print examples/shift.c > "$work/guarded.c"
cmp examples/shift.guarded.c "$work/guarded.c"
"$program" try examples/shift.c examples/shift.data > "$work/tried"

cat > "$work/once.c" <<'C'
#include "text.c"
#include <inttypes.h>
#include <stdio.h>
int main(void) {
  uint64_t cells[4] = {5, 0, 0, 0};
  uint64_t word = bal_fn_shift(4, cells);
  printf("A =");
  for (int k = 0; k < 4; k++) printf(" %" PRIu64, cells[k]);
  printf("\n%" PRIu64 "\n", word);
  return 0;
}
C

cat > "$work/beside.c" <<'C'
#include "text.c"
#include "shift.c"
#include <stdio.h>
#include <string.h>
int main(void) {
  uint64_t x = 1;
  for (int64_t n = 1; n <= 200; n++) {
    uint64_t cells[200], others[200];
    for (int64_t k = 0; k < n; k++) cells[k] = x = x * 6364136223846793005u + 1442695040888963407u;
    memcpy(others, cells, sizeof cells[0] * n);
    shift(n, others);
    if (bal_fn_shift(n, cells) != 0 || memcmp(cells, others, sizeof cells[0] * n) != 0) {
      printf("n = %d differs\n", (int)n);
      return 1;
    }
  }
  return 0;
}
C

# The callers, each with the text as an object of its own.
called() { # C-COMPILER C++-COMPILER
  "$1" $flags -c examples/shift.guarded.c -o "$work/guarded.o"
  "$1" $flags -o "$work/call" examples/call.c "$work/guarded.o"
  expect "$1, call.c" '5 6 7 8' "$("$work/call")"
  "$2" -std=c++17 -O2 -Wall -Wextra -Werror -o "$work/call" examples/call.cpp "$work/guarded.o"
  expect "$2, call.cpp" '5 6 7 8' "$("$work/call")"
}

# The text with a bit inverted before the access of a place: an even place is a load, an odd one the store behind it.
inverted() { # CELL BIT PLACE
  awk -v cell="$1" -v bit="$2" -v place="$3" '
    ($0 == "    bal_r0 = A[i];" && place % 2 == 0) || ($0 == "    A[i + 1] = bal_w;" && place % 2 == 1) {
      printf "    if (i == %d) { A[%d] ^= 1ull << %d; }\n", int(place / 2), cell, bit
      found = 1
    }
    { print }
    END { exit !found }' "$work/guarded.c"
}

compiled() { # COMPILER SOURCE
  # shellcheck disable=SC2086
  "$1" $flags -I "$work" -I examples -o "$work/made" "$work/$2" && "$work/made"
}

expect() { # WHAT WANTED GOT
  [ "$2" = "$3" ] || { printf '%s: wanted\n%s\ngot\n%s\n' "$1" "$2" "$3" >&2; exit 1; }
}

# The bits that are inverted, the cells that are left, and the returned word.
faults='1 3 2:A = 5 14 15 16:1
1 3 1:A = 5 6 7 8:0
1 3 3:A = 5 14 7 8:0
0 63 0:A = 9223372036854775813 9223372036854775814 9223372036854775815 9223372036854775816:1
3 0 5:A = 5 6 7 8:0'

for compiler in gcc clang; do
  command -v "$compiler" > /dev/null || continue
  cp "$work/guarded.c" "$work/text.c"
  got=$(compiled "$compiler" once.c)
  expect "$compiler" "$(printf 'A = 5 6 7 8\n0')" "$got"
  expect "$compiler, beside try" "$(head -1 "$work/tried")" "$(printf '%s\n' "$got" | head -1)"
  compiled "$compiler" beside.c
  called "$compiler" "$(printf %s "$compiler" | sed 's/gcc/g++/; s/clang/clang++/')"
  while IFS=: read -r fault cells word; do
    # shellcheck disable=SC2086
    inverted $fault > "$work/text.c"
    expect "$compiler, bit $fault" "$(printf '%s\n%s' "$cells" "$word")" "$(compiled "$compiler" once.c)"
  done <<< "$faults"
  echo "$compiler: as promised"
done
