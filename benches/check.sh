#!/usr/bin/env bash
# Times all checks of a source: `balance report` of the largest sources that are accepted, the fastest of five runs in
# processor time (user and system), and the most memory. Ends with 1 where one takes more than a second.
#   reads   256 assignments with 16 reads each, under six loops, with eight parameters in scope
#   nests   262,144 bytes of affine and data expressions that are 64 high
#   names   16 arrays and 16 scalars with names of 255 letters that differ in the last
# With a folder as second argument it writes the sources there, and runs nothing.
#   benches/check.sh [PROGRAM [FOLDER]]
set -eu
benches=$(cd "$(dirname "$0")" && pwd)
program=${1:-bin/balance}
folder=${2:-$(mktemp -d)}
[ $# -ge 2 ] || trap 'rm -rf "$folder"' EXIT
[ $# -ge 2 ] || [ -x "$program" ] || { echo "benches/check.sh: no program at $program (make build)" >&2; exit 1; }
export PYTHONPATH=$benches PYTHONDONTWRITEBYTECODE=1
python3 - "$program" "$folder" $# <<'PY'
import itertools, os, sys
from measure import fastest

program, folder, only_writes = sys.argv[1], sys.argv[2], sys.argv[3] == "2"
LIMIT, MOST_HIGH, MOST_SECONDS = 262_144, 64, 1.0
INTS, LOOPS = "mnopqrtu", "abcdef"

def source(ints, arrays, scalars, loops, statements):
    """A function of arrays with so many extents, with statements in loops, one in another."""
    ranges = "".join(f"#pragma balance range {n} 1 1000\n" for n in ints)
    params = [f"int64_t {n}" for n in ints] + [f"uint64_t {x}{f'[{ints[0]}]' * extents}" for x, extents in arrays]
    words = "".join(f"uint64_t {s} = 1;\n" for s in scalars)
    heads = "".join(f"for (int64_t {v} = 0; {v} < {ints[0]}; {v}++)\n" for v in loops)
    body = "\n".join(statements)
    return f"#include <stdint.h>\n{ranges}void g({', '.join(params)}) {{\n{words}{heads}{{\n{body}\n}} }}\n"

def padded(text):
    return text + "//" + "x" * (LIMIT - len(text) - 3) + "\n"

def chain(high, names):
    """An affine expression of this height, nested on the left."""
    return "".join(f"{next(names)}{'+-'[k % 2]}" for k in range(high - 1)) + "1"

def nest(high, inner, names):
    """An expression that is nested on the right around another, and so much higher."""
    parts = [f"{next(names)}{'+-'[k % 2]}(" for k in range(high)]
    return "".join(parts) + inner + ")" * len(parts)

def reads():
    """Each subscript is a sum of eight names in scope and a number."""
    names = itertools.cycle(LOOPS + INTS)
    def cell():
        return "A" + "".join(f"[{chain(9, names)}]" for _ in range(3))
    statements = [f"{cell()} = {'+'.join(cell() for _ in range(16))};" for _ in range(256)]
    return padded(source(INTS, [("A", 3)], [], LOOPS, statements))

def nests():
    names, words = itertools.cycle(LOOPS + INTS), itertools.cycle("vwxyz")
    def statement():
        deep = nest(18, f"B[{nest(41, '2', names)}]", words)
        value = f"A[{chain(60, names)}]*({deep})+A[{nest(57, '1', names)}]+B[{chain(60, names)}]"
        return f"A[{nest(MOST_HIGH - 2, '1', names)}] = {value};"
    return padded(source(INTS, [("A", 1), ("B", 1)], "vwxyz", LOOPS, [statement() for _ in range(256)]))

def names():
    """As many assignments as there is room for."""
    def long(first, count):
        return [first * 254 + chr(ord("a") + k) for k in range(count)]
    ints, arrays, scalars, loops = long("n", 8), long("A", 16), long("s", 16), long("i", 6)
    def text(count):
        statements = []
        for k in range(count):
            read = f"{arrays[(k + 5) % 16]}[{ints[k % 8]}]"
            statements.append(f"{arrays[k % 16]}[{loops[k % 6]}] = {read} + {scalars[k % 16]};")
        return source(ints, [(x, 1) for x in arrays], scalars, loops, statements)
    return padded(text((LIMIT - len(text(0)) - 3) // (len(text(1)) - len(text(0)) + 1)))

slow = []
if not only_writes:
    print(f"{'text':<8}{'bytes':>8}{'seconds':>9}{'MB':>6}")
for make in (reads, nests, names):
    name, path = make.__name__, os.path.join(folder, make.__name__ + ".c")
    with open(path, "w") as file:
        file.write(make())
    if os.path.getsize(path) != LIMIT:
        sys.exit(f"benches/check.sh: {name} has {os.path.getsize(path)} bytes")
    if only_writes:
        continue
    run = fastest([program, "report", path])
    print(f"{name:<8}{LIMIT:>8}{run.seconds:>9.3f}{run.memory / 1e6:>6.0f}", flush=True)
    if run.seconds > MOST_SECONDS:
        slow.append(name)
if slow:
    sys.exit(f"benches/check.sh: more than {MOST_SECONDS} s: {' '.join(slow)}")
PY
