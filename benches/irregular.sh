#!/usr/bin/env bash
# Times `balance try` of examples that read through index arrays, and beside it how many times as long as its source the
# printed text takes, as gcc and clang (where it is installed) compile both at -O2. The fastest of ROUNDS rounds counts;
# times are of processor. What `try` writes must be what the compiled printed text writes, byte for byte. Each `try`
# has LIMIT seconds.
#   benches/irregular.sh [ROUNDS] [PROGRAM]
set -eu
. "$(dirname "$0")/setup.sh" "${2:-}"
python3 - "$benches" "$program" "$folder" "${1:-5}" <<'PY'
import filecmp, os, random, shutil, subprocess, sys
import driver, tree
from measure import fastest, succeeded

benches, program, work, rounds = *sys.argv[1:4], int(sys.argv[4])
COMPILERS = [name for name in ("gcc", "clang") if shutil.which(name)]
LIMIT = 5

# The example, its parameters, and how many values there are for the cells of its index array.
ROWS = [
    ("gather", {"n": 1000, "m": 1000}, {"P": 1000}),
    ("sparse", {"n": 150, "k": 8}, {"columns": 150}),
]


def write_data(path, unit, ints, below):
    words = random.Random(1)
    with open(path, "w") as out:
        for name, value in ints.items():
            out.write(f"{name} = {value}\n")
        for array in unit.arrays:
            cells = (words.randrange(below.get(array[0], 2**64)) for _ in range(tree.cells(array, ints)))
            out.write(f"{array[0]} = {' '.join(map(str, cells))}\n")


def seconds_of(compiler, unit, text, name, data, output):
    """The seconds of a text that this compiler makes, on the data."""
    main = os.path.join(work, name + ".main.c")
    with open(main, "w") as out:
        out.write(driver.main_of(unit, text))
    subprocess.run([compiler, "-std=gnu17", "-O2", "-w", "-I", benches, "-o", main + ".out", main], check=True)
    return float(succeeded([main + ".out", str(rounds)], output, data).said)


def row(kernel, ints, below):
    source = os.path.join(benches, "../examples", kernel + ".c")
    printed, data, tried = (os.path.join(work, kernel + end) for end in (".printed.c", ".data", ".tried"))
    succeeded([program, "print", source], printed)
    unit = tree.read(source)
    guarded = unit._replace(printed=True, name="bal_fn_" + unit.name)
    write_data(data, unit, ints, below)
    run = fastest([program, "try", source, data], tried, rounds)
    ratios = []
    for compiler in COMPILERS:
        plain = seconds_of(compiler, unit, source, kernel + ".plain", data, os.path.join(work, "plain"))
        computed = os.path.join(work, "computed")
        guarding = seconds_of(compiler, guarded, printed, kernel, data, computed)
        if not filecmp.cmp(tried, computed, shallow=False):
            sys.exit(f"benches/irregular.sh: {kernel}: not what {compiler} makes of the printed text")
        ratios.append(guarding / plain)
    shown = "".join(f"{ratio:>10.0f}" for ratio in ratios)
    print(f"{kernel:<9}{run.seconds:>9.3f}{run.memory / 2**20:>7.0f}{shown}")
    return run.seconds <= LIMIT


print(f"Processor time and memory of try, and the printed text over its source, compiled; the fastest of {rounds} rounds.")
print(f"{'':<9}{'seconds':>9}{'MB':>7}" + "".join(f"{name:>10}" for name in COMPILERS))
met = [row(*r) for r in ROWS]
print(f"The aim is at most {LIMIT} seconds: {sum(met)} of {len(met)} rows.")
PY
