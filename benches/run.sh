#!/usr/bin/env bash
# Times `balance run` and `balance try` of the kernels in benches/kernels beside a tree walk in C (benches/walk.c) and
# gcc -O2, on the same data: ROUNDS rounds over all rows, of which the fastest counts. Times are of processor, user and
# system. What the three write must be the same, byte for byte.
#
# With `run` the walk and gcc get the source, with `try` what `balance print` writes of it, whose counting passes make
# many more turns. They time their run alone. Of `balance`, what the same command takes for a source without a
# statement, on the same data, is subtracted: it has read and written as many cells.
#   benches/run.sh [ROUNDS] [PROGRAM]
set -eu
. "$(dirname "$0")/setup.sh" "${2:-}"
python3 - "$benches" "$program" "$folder" "${1:-5}" <<'PY'
import filecmp, os, random, subprocess, sys
import driver, tree
from measure import succeeded

benches, program, work, rounds = *sys.argv[1:4], int(sys.argv[4])
GCC = ["gcc", "-std=gnu17", "-O2", "-I", benches]
WALK = os.path.join(work, "walk")
FULL = (10**18, 2**64 - 1)
AIM = 1.25

# The command, the kernel, its parameters, and the least and the greatest word of an array that isn't full of long
# words: what is written has as many digits as what is read, and a data file is within its limit.
ROWS = [
    ("run", "shift", {"n": 4_000_000}, {"A": (1_000_000, 1_000_000)}),
    ("run", "sixteen", {"n": 1_000_000}, {}),
    ("run", "product", {"n": 200}, {}),
    ("run", "lu", {"n": 250}, {}),
    ("run", "plane", {"t": 20, "n": 300}, {}),
    ("run", "cube", {"n": 120}, {"A": (1_500_000, 9_900_000), "B": (11_000_000, 69_000_000)}),
    ("try", "shift", {"n": 4_000}, {}),
    ("try", "sixteen", {"n": 1_200}, {}),
    ("try", "product", {"n": 16}, {}),
    ("try", "lu", {"n": 24}, {}),
    ("try", "plane", {"t": 8, "n": 16}, {}),
    ("try", "cube", {"n": 14}, {}),
]


class Row:
    def __init__(self, number, command, kernel, ints, ranges):
        self.command, self.kernel, self.ints, self.ranges = command, kernel, ints, ranges
        self.folder = os.path.join(work, str(number))
        self.best = {}

    def file(self, name):
        return os.path.join(self.folder, name)

    def prepare(self):
        os.mkdir(self.folder)
        source = os.path.join(benches, "kernels", self.kernel + ".c")
        text = self.file("printed.c") if self.command == "try" else source
        if self.command == "try":
            succeeded([program, "print", source], text)
        self.unit = tree.read(text)
        self.cells = sum(tree.cells(a, self.ints) for a in self.unit.arrays)
        self.write_data()
        with open(source) as given, open(self.file("idle.c"), "w") as idle:
            idle.write(given.read().split("{", 1)[0] + "{\n}\n")
        with open(self.file("tree"), "w") as out:
            out.write(tree.tree_of(self.unit))
        with open(self.file("main.c"), "w") as out:
            out.write(driver.main_of(self.unit, text))
        subprocess.run([*GCC, "-w", "-o", self.file("compiled"), self.file("main.c")], check=True)
        self.balance = [program, self.command, source, self.file("data")]
        self.idle = [program, self.command, self.file("idle.c"), self.file("data")]

    def write_data(self):
        words = random.Random(1)
        with open(self.file("data"), "w") as out:
            for name, value in self.ints.items():
                out.write(f"{name} = {value}\n")
            for array in self.unit.arrays:
                least, greatest = self.ranges.get(array[0], FULL)
                cells = (words.randint(least, greatest) for _ in range(tree.cells(array, self.ints)))
                out.write(f"{array[0]} = {' '.join(map(str, cells))}\n")

    def keep(self, what, seconds):
        self.best[what] = min(seconds, self.best.get(what, seconds))

    def measure(self):
        """One round: of what the row keeps, the fastest counts."""
        data = self.file("data")
        self.keep("balance", succeeded(self.balance, self.file("output")).seconds)
        self.keep("idle", succeeded(self.idle, self.file("no-output")).seconds)
        said = succeeded([WALK, self.file("tree"), "1"], self.file("walked"), data).said.split()
        self.accesses, self.turns = int(said[0]), int(said[1])
        self.keep("walk", float(said[2]))
        said = succeeded([self.file("compiled"), "3"], self.file("computed"), data).said
        self.keep("gcc", float(said))
        for other in ("walked", "computed"):
            if not filecmp.cmp(self.file("output"), self.file(other), shallow=False):
                sys.exit(f"benches/run.sh: {self.command} {self.kernel}: not what is {other}")

    def shown(self):
        """Writes the row, and says whether it meets the aim."""
        seconds = self.best["balance"] - self.best["idle"]
        row = f"{self.command:<5}{self.kernel:<9}{self.cells:>8}{self.accesses:>10}{self.turns:>10}{seconds:>9.3f}"
        if seconds <= 0:
            print(row, " too short for this machine")
            return False
        walk, gcc = seconds / self.best["walk"], seconds / self.best["gcc"]
        print(f"{row}{self.accesses / seconds:>12.3g}{self.turns / seconds:>12.3g}{walk:>7.2f}{gcc:>9.1f}")
        return walk <= AIM


rows = [Row(number, *row) for number, row in enumerate(ROWS)]
subprocess.run([*GCC, "-Wall", "-Wextra", "-o", WALK, os.path.join(benches, "walk.c")], check=True)
for row in rows:
    row.prepare()
for _ in range(rounds):
    for row in rows:
        row.measure()
print(f"Processor time of balance, the fastest of {rounds} rounds, and how many times that of the walk and of gcc -O2.")
print(f"{'':<14}{'cells':>8}{'accesses':>10}{'turns':>10}{'seconds':>9}"
      f"{'accesses/s':>12}{'turns/s':>12}{'walk':>7}{'gcc -O2':>9}")
met = [row.shown() for row in rows]
print(f"The aim is at most {AIM} times the walk: {sum(met)} of {len(rows)} rows.")
PY
