#!/usr/bin/env bash
# The most memory of `balance run` at 4,194,304 cells, in bytes a cell: over what the data text takes, and over what
# that and the output take, which stands in memory whole before it is written. Beside it the most memory of the same
# run of one cell, which is counted in.
#   shift   one array, of words of one digit (which run up to seven) and of 14
#   plane   two arrays of 1,448 times 1,448 cells
#   arrays  16 arrays of 262,144 cells, through which a sum goes
#   benches/memory.sh [PROGRAM]
set -eu
. "$(dirname "$0")/setup.sh" "${1:-}"
python3 - "$benches" "$program" "$folder" <<'PY'
import os, sys
import tree
from measure import fastest

benches, program, folder = sys.argv[1:]
CELLS, AIM = 1 << 22, 24

def kernel(name):
    return os.path.join(benches, "kernels", name + ".c")

def arrays():
    path = os.path.join(folder, "arrays.c")
    params = ", ".join(f"uint64_t A{k}[n]" for k in range(16))
    reads = " + ".join(f"A{k}[i]" for k in range(16))
    with open(path, "w") as file:
        file.write(f"#include <stdint.h>\n#pragma balance range n 1 262144\nvoid arrays(int64_t n, {params}) {{\n"
                   f"  for (int64_t i = 0; i < n; i++)\n    A0[i] = {reads};\n}}\n")
    return path

# A name, the source, its parameters, those of one cell in each array, and the word in each cell.
ROWS = [
    ("shift", kernel("shift"), {"n": CELLS}, {"n": 1}, 1),
    ("shift", kernel("shift"), {"n": CELLS}, {"n": 1}, 10**13),
    ("plane", kernel("plane"), {"t": 1, "n": 1448}, {"t": 1, "n": 1}, 10**13),
    ("arrays", arrays(), {"n": CELLS // 16}, {"n": 1}, 10**13),
]

def data_of(source, ints, word):
    """A data file, written piece by piece so that this process stays small, and its number of cells."""
    path, count = os.path.join(folder, "data"), 0
    with open(path, "w") as out:
        out.writelines(f"{name} = {value}\n" for name, value in ints.items())
        for array in tree.read(source).arrays:
            cells = tree.cells(array, ints)
            out.write(f"{array[0]} =")
            out.writelines(f" {word}" for _ in range(cells))
            out.write("\n")
            count += cells
    return path, count

def most_memory(source, ints, word):
    data, cells = data_of(source, ints, word)
    output = os.path.join(folder, "output")
    memory = fastest([program, "run", source, data], output, rounds=1).memory
    return memory, cells, os.path.getsize(data), os.path.getsize(output)

print(f"{'':<8}{'cells':>9}{'data':>10}{'output':>10}{'MB':>6}{'of one':>8}"
      f"{'bytes a cell over data':>24}{'and output':>12}")
for name, source, ints, small, word in ROWS:
    least = most_memory(source, small, word)[0]
    memory, cells, data, output = most_memory(source, ints, word)
    print(f"{name:<8}{cells:>9}{data:>10}{output:>10}{memory / 1e6:>6.0f}{least / 1e6:>8.0f}"
          f"{(memory - data) / cells:>24.1f}{(memory - data - output) / cells:>12.1f}", flush=True)
print(f"The aim is at most {AIM} bytes a cell over the data.")
PY
