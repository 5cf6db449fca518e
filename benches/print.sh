#!/usr/bin/env bash
# Times `balance print`: the fastest of five runs in processor time (user and system), the bytes that it printed in a
# second, and the most memory, with `gcc -O2 -c` of what it printed beside it where that is short.
#   longest source   a loop with a comment, 262,144 bytes
#   longest names    names of 255 letters, and 32 items of which 16 are cells
#   product, .., cube  those of benches/kernels
#   assignments      so many in a loop: each has a counting pass over all, so what is printed grows with the square
# Printing is linear in what it prints where the longer texts have as many bytes a second as the shorter.
#   benches/print.sh [PROGRAM]
set -eu
. "$(dirname "$0")/setup.sh" "${1:-}"
python3 - "$benches" "$program" "$folder" <<'PY'
import os, sys
from measure import fastest

benches, program, folder = sys.argv[1:]
LIMIT = 262_144
SHORT = 100_000

def loop(n, f, a, i, statements):
    body = "".join(f"    {s}\n" for s in statements)
    return (f"#pragma balance range {n} 1 1000\nvoid {f}(int64_t {n}, uint64_t {a}[{n}]) {{\n"
            f"  for (int64_t {i} = 1; {i} < {n}; {i}++) {{\n{body}  }}\n}}\n")

def longest_source():
    text = loop("n", "f", "A", "i", ["A[i] = A[i - 1] + 1;"])
    return text + "//" + "x" * (LIMIT - len(text) - 3) + "\n"

def longest_names():
    n, f, a, i = (letter * 255 for letter in "nfAi")
    items = [f"{a}[{i} - 1]"] * 16 + ["18446744073709551615"] * 16
    return loop(n, f, a, i, [f"{a}[{i}] = {' + '.join(items)};"])

def kernel(name):
    with open(os.path.join(benches, "kernels", name + ".c")) as file:
        return file.read()

def assignments(count):
    return loop("n", "f", "A", "i", [f"A[i - {k}] = A[i + {k}] + {k};" for k in range(count)])

TEXTS = [("longest source", longest_source()), ("longest names", longest_names())]
TEXTS += [(name, kernel(name)) for name in ("product", "lu", "plane", "cube")]
TEXTS += [(f"{count} assignments", assignments(count)) for count in (32, 64, 128, 256)]

print(f"{'text':<16}{'bytes':>8}{'printed':>10}{'seconds':>9}{'bytes/s':>10}{'MB':>6}{'  gcc -O2 -c':>13}{'MB':>6}")
source, guarded, made = (os.path.join(folder, name) for name in ("source.c", "guarded.c", "guarded.o"))
for name, text in TEXTS:
    with open(source, "w") as file:
        file.write(text)
    run = fastest([program, "print", source], guarded)
    printed = os.path.getsize(guarded)
    row = f"{name:<16}{len(text):>8}{printed:>10}{run.seconds:>9.3f}{printed / run.seconds:>10.2g}"
    row += f"{run.memory / 1e6:>6.0f}"
    if printed <= SHORT:
        gcc = fastest(["gcc", "-std=gnu17", "-O2", "-w", "-c", guarded, "-o", made])
        row += f"{gcc.seconds:>13.3f}{gcc.memory / 1e6:>6.0f}"
    print(row, flush=True)
PY
