"""Runs a printed text under flips of single bits; examples/inject.sh says what for, and how it is called."""
import argparse
import os
import random
import re
import shutil
import subprocess
import sys
import tempfile
from bisect import bisect_left
from collections import Counter, defaultdict
from typing import NamedTuple

import driver
import tree

HERE = os.path.dirname(os.path.abspath(__file__))
COMPILERS = ("gcc", "clang")
LEVELS = ("-O0", "-O2", "-O3")
WARNINGS = ["-std=gnu17", "-Wall", "-Wextra", "-Wno-unknown-pragmas", "-Wno-unused-function", "-Werror"]
SMALL = 100_000  # the most flips of a text that is tried under all
SHOWN = 40  # the most flips that are shown one by one
BESIDE = 200  # the most flips for which the program is called
BITS = (0, 31, 32, 63)
USAGE, REPORTED = 2, 1  # two statuses of the program
BEGIN = "#pragma balance begin\n"
NUMBER = r"(0|[1-9]\d*)"


class Flip(NamedTuple):
    array: int
    cell: int
    bit: int
    place: int


class Access(NamedTuple):
    kind: str  # r or w; n where the number is that of the array's cells
    array: int
    number: int


def stop(words):
    print(f"inject: {words}", file=sys.stderr)
    sys.exit(2)


# ---- the hooked text


def hooked(text, unit):
    """The text with a call of bal_hook before each line of the body that loads or stores a cell."""
    names = "|".join(re.escape(a[0]) for a in unit.arrays)
    subscripted = re.compile(rf"\b({names})\[")
    load = re.compile(rf"bal_r\d+ = (({names})(\[[^][]*\])+);")
    store = re.compile(rf"(({names})(\[[^][]*\])+) = bal_w;")
    head, _, body = text.partition(BEGIN)
    lines = ["#include <stdint.h>", "void bal_hook(char kind, const uint64_t *cell);", head + BEGIN.rstrip()]
    for line in body.splitlines():
        if subscripted.search(line):
            loaded, stored = load.fullmatch(line.strip()), store.fullmatch(line.strip())
            if not (loaded or stored):
                stop(f"neither a load nor a store: {line}")
            lines.append(f"bal_hook('{'r' if loaded else 'w'}', &{(loaded or stored)[1]});")
        lines.append(line)
    return "\n".join(lines) + "\n"


def index_arrays(text, unit):
    """The numbers of the arrays whose cells are subscripts: a word that was loaded from one stands in brackets."""
    numbers = {name: a for a, (name, _, _) in enumerate(unit.arrays)}
    names = "|".join(map(re.escape, numbers))
    access = re.compile(rf"(?:(bal_r\d+) = )?\b({names})((?:\[[^][]*\])+)")
    loaded, found = {}, set()
    for line in text.partition(BEGIN)[2].splitlines():
        for word, name, subscripts in access.findall(line):
            found |= {loaded[r] for r in re.findall(r"bal_r\d+", subscripts) if r in loaded}
            if word:
                loaded[word] = numbers[name]
    return found


def header(text, unit):
    """What examples/inject.c has to know of the text."""
    prototype = re.search(r"^(uint64_t bal_fn_.*) {$", text, re.M)[1] + ";"
    arrays = [f'{{.name = "{name}", .constant = {int(constant)}}}' for name, constant, _ in unit.arrays]
    lines = ["#include <stdint.h>", prototype, '#include "timed.h"']
    lines.append(f"static struct array arrays[] = {{{', '.join(arrays)}}};")
    lines += [f"static int64_t int_{x};" for x in unit.ints]
    lines += ["static void read_array(struct array *a, uint64_t count);", "static void read_inputs(void) {"]
    lines += [f'  int_{x} = int_of("{x}");' for x in unit.ints]
    for a, (_, _, extents) in enumerate(unit.arrays):
        lines.append(f"  read_array(&arrays[{a}], {' * '.join(f'(uint64_t)({driver.c_text(e)})' for e in extents)});")
    numbers = {name: a for a, (name, _, _) in enumerate(unit.arrays)}
    words = [f"(void *)arrays[{numbers[x]}].cells" if x in numbers else f"int_{x}" for x in unit.params]
    lines += ["}", "static uint64_t call(void) {", f"  return {unit.name}({', '.join(words)});", "}"]
    return "\n".join(lines) + "\n"


class Build:
    """The hooked text as one compiler makes it. The text is an object of its own: no call is looked through."""

    def __init__(self, work, compiler, level):
        self.name, self.work = f"{compiler} {level}", work
        self.made = os.path.join(work, f"made-{compiler}{level}")
        flags = [compiler, *WARNINGS, level, "-I", work, "-I", os.path.join(HERE, "../benches")]
        for part in (os.path.join(work, "text.c"), os.path.join(HERE, "inject.c")):
            succeeded([*flags, "-c", part, "-o", self.object(part)])
        succeeded([compiler, "-o", self.made, self.object("text.c"), self.object("inject.c")])

    def object(self, part):
        return f"{self.made}-{os.path.basename(part)[:-2]}.o"

    def run(self, data, flips):
        """The outputs without a flip and under each, as lists of lines, and what the first run wrote of its accesses."""
        accesses, list_of_flips = os.path.join(self.work, "accesses"), os.path.join(self.work, "flips")
        with open(list_of_flips, "w") as file:
            file.writelines(" ".join(map(str, flip)) + "\n" for flip in flips)
        with open(data) as file:
            lines = succeeded([self.made, accesses, list_of_flips], file).splitlines()
        length = len(lines) // (len(flips) + 1)
        with open(accesses) as file:
            made = [Access(kind, int(a), int(number)) for kind, a, number in map(str.split, file)]
        return [lines[k:k + length] for k in range(0, len(lines), length)], made


def succeeded(words, stdin=None):
    done = subprocess.run(words, stdin=stdin, stdout=subprocess.PIPE, text=True)
    if done.returncode:
        sys.exit(2)
    return done.stdout


# ---- flips


def read_flip(path, case):
    """The flip of a file, where it fits."""
    with open(path, newline="") as file:
        lines = [line.removesuffix("\r") for line in file.read().split("\n")]
    lines = [line for line in lines if line.strip(" \t")]
    found = len(lines) == 1 and re.fullmatch(rf"flip (\S+) {NUMBER} {NUMBER} at {NUMBER}", lines[0])
    if not found:
        stop(f"{path} is no flip file")
    array = [a for a, (name, _, _) in enumerate(case.unit.arrays) if name == found[1]]
    cell, bit, place = (int(found[k]) for k in (2, 3, 4))
    if not array or cell >= case.counts[array[0]] or bit > 63 or place >= 2**64:
        stop(f"{path}: no such array, cell, bit or place")
    return Flip(array[0], cell, bit, place)


def flip_text(flip, unit):
    return f"flip {unit.arrays[flip.array][0]} {flip.cell} {flip.bit} at {flip.place}"


def cells_of(case):
    return [(a, cell) for a, count in enumerate(case.counts) for cell in range(count)]


def random_flips(case, number, seed):
    """Cell, bit and place are independent, each as likely as every other; the last place lies behind all accesses."""
    generator, cells = random.Random(seed), cells_of(case)
    return [Flip(*generator.choice(cells), generator.randrange(64), generator.randrange(len(case.accesses) + 1))
            for _ in range(number)]


def all_flips(case):
    places = range(len(case.accesses) + 1)
    return [Flip(*cell, bit, place) for cell in cells_of(case) for bit in BITS for place in places]


# ---- what is promised


class Case:
    """A printed text, the values that it runs on, and its run without a flip."""

    def __init__(self, unit, data, index_arrays):
        self.unit, self.data, self.index_arrays = unit, data, index_arrays
        self.plain, self.accesses, self.counts, self.of_cell = [], [], [], defaultdict(list)

    def ran(self, plain, written):
        self.plain = plain
        self.counts = [access.number for access in written if access.kind == "n"]
        self.accesses = [access for access in written if access.kind != "n"]
        for place, access in enumerate(self.accesses):
            self.of_cell[access.array, access.number].append(place)

    def next_access(self, flip):
        """`read`, `write` or `none`, and the place."""
        places = self.of_cell.get((flip.array, flip.cell), [])
        at = bisect_left(places, flip.place)
        if at == len(places):
            return "none", None
        return {"r": "read", "w": "write"}[self.accesses[places[at]].kind], places[at]

    def left(self, flip):
        """The output where the flip isn't exposed."""
        name, constant, _ = self.unit.arrays[flip.array]
        lines = list(self.plain)
        if self.next_access(flip)[0] == "none" and not constant:
            at = [line.split()[0] for line in lines].index(name)
            words = lines[at].split()
            words[flip.cell + 2] = str(int(words[flip.cell + 2]) ^ 1 << flip.bit)
            lines[at] = " ".join(words)
        return lines

    def promised(self, flip, output):
        if self.next_access(flip)[0] != "read":
            return output == self.left(flip)
        verdict, *names = output[-1].split()
        name = self.unit.arrays[flip.array][0]
        if flip.array in self.index_arrays:
            return verdict == "index" or (verdict == "fault" and name in names)
        return output[-1] == f"fault {name}"


# ---- the program beside the builds


class Program:
    def __init__(self, path, words, work):
        self.path, self.words, self.flip = path, words, os.path.join(work, "one.flip")
        self.name = f"balance {words[0]}"

    def output(self, flip=None):
        """Its output and its status, with the text of a flip or without."""
        words = [self.path, *self.words]
        if flip is not None:
            with open(self.flip, "w") as file:
                file.write(flip + "\n")
            words.append(self.flip)
        done = subprocess.run(words, stdout=subprocess.PIPE, stderr=subprocess.PIPE)
        return done.stdout, done.returncode, done.stderr.decode()

    def agrees(self, output, flip=None):
        got, status, _ = self.output(flip)
        return got == ("\n".join(output) + "\n").encode() and status == (output[-1] != "balanced") * REPORTED

    def takes_flips(self, flip):
        return self.output(flip)[1] != USAGE


def beside(program, case, flips, outputs):
    """Compares with the program under at most BESIDE flips, shows those under which it differs, and counts them."""
    texts = [flip_text(flip, case.unit) for flip in flips]
    if not program.takes_flips(texts[0]):
        print("the program takes no flips yet: not compared")
        return 0
    sample = sorted(random.Random(0).sample(range(len(flips)), min(len(flips), BESIDE)))
    wrong = [k for k in sample if not program.agrees(outputs[k], texts[k])]
    for k in wrong:
        print(f"{texts[k]}: the text leads to {' / '.join(outputs[k])}, and {program.name} differs")
    print(f"{program.name}: the same as the text under {len(sample) - len(wrong)} of {len(sample)} compared flips")
    return len(wrong)


# ---- tables


def table(rows):
    widths = [max(len(row[k]) for row in rows) for k in range(len(rows[0]))]
    for row in rows:
        print("  ".join(word.ljust(width) for word, width in zip(row, widths)).rstrip())


def one_by_one(case, flips, outputs):
    rows = [("flip", "next access", "reported", "left")]
    for flip, output in zip(flips, outputs):
        kind, place = case.next_access(flip)
        changed = "as without" if output[:-1] == case.plain[:-1] else " / ".join(output[:-1])
        rows.append((flip_text(flip, case.unit)[5:], kind if place is None else f"{kind} at {place}", output[-1],
                     changed if len(changed) <= 100 else "otherwise"))
    table(rows)


def by_array(case, flips, outputs):
    counts = Counter()
    for flip, output in zip(flips, outputs):
        key = case.unit.arrays[flip.array][0], case.next_access(flip)[0]
        counts[(*key, "flips")] += 1
        counts[(*key, "reported" if output[-1] != "balanced" else "missed")] += 1
        counts[(*key, "wrong")] += output[-1] == "balanced" and output[:-1] != case.plain[:-1]
    columns = ("flips", "reported", "missed", "wrong")
    rows = [("array", "next access", "flips", "reported", "missed", "missed, output wrong")]
    for name, _, _ in case.unit.arrays:
        for kind in ("read", "write", "none"):
            if counts[name, kind, "flips"]:
                rows.append((name, kind, *(str(counts[name, kind, column]) for column in columns)))
    rows.append(("all", "", *(str(sum(n for key, n in counts.items() if key[2] == column)) for column in columns)))
    table(rows)


def tried(case, builds, program, flips, each):
    """Runs every build under the flips, shows what the first one says, and counts what isn't as promised."""
    wrong = 0
    for build in builds:
        outputs, _ = build.run(case.data, flips)
        if build is builds[0]:
            first = outputs[1:]
            (one_by_one if each or len(flips) <= SHOWN else by_array)(case, flips, first)
        bad = [k for k, flip in enumerate(flips) if not case.promised(flip, outputs[k + 1])]
        for k in bad[:SHOWN]:
            print(f"{build.name}: {flip_text(flips[k], case.unit)} leads to {' / '.join(outputs[k + 1])}")
        print(f"{build.name}: {len(flips) - len(bad)} of {len(flips)} as promised")
        wrong += len(bad)
    return wrong + (beside(program, case, flips, first) if program else 0)


# ---- the command


def read_words():
    parser = argparse.ArgumentParser(prog="inject.sh", description="Runs a printed text under flips of single bits.")
    parser.add_argument("-n", type=int, default=1000, metavar="NUMBER", help="how many random flips")
    parser.add_argument("-s", type=int, default=1, metavar="SEED", help="where their generator begins")
    parser.add_argument("-a", action="store_true", help="show each flip")
    parser.add_argument("source")
    parser.add_argument("data")
    parser.add_argument("flips", nargs="*", metavar="FLIP")
    return parser.parse_args()


def printed_text(words, work):
    """The printed text, and the program with the words that run it; None where there is none and none is needed."""
    path = os.environ["BALANCE"]
    with open(words.source) as file:
        text = file.read()
    printed = "\n#pragma balance version 1\n" in text
    if not os.access(path, os.X_OK):
        if not printed:
            stop(f"no program at {path} (make build)")
        return text, None
    if not printed:
        text = succeeded([path, "print", words.source])
    return text, Program(path, ["run" if printed else "try", words.source, words.data], work)


def first_run(case, builds, program):
    """The run without a flip, which all builds and the program must make alike, and which must be balanced."""
    outputs, written = builds[0].run(case.data, [])
    case.ran(outputs[0], written)
    others = [build.name for build in builds[1:] if build.run(case.data, []) != (outputs, written)]
    if program:
        complaint = program.output()[2]
        if complaint:
            stop(complaint.strip())
        if not program.agrees(case.plain):
            others.append(program.name)
    print(f"without a flip: {len(case.accesses)} accesses, {case.plain[-1]}")
    if others or case.plain[-1] != "balanced":
        print(f"not as promised: {', '.join(others) or builds[0].name}")
        sys.exit(1)


def found(compiler):
    return shutil.which(compiler) is not None


def chosen(words, case):
    """The lists of flips, each with its title."""
    if words.flips:
        return [("the given flips", [read_flip(path, case) for path in words.flips])]
    if not any(case.counts):
        stop("no array has a cell")
    lists = []
    if words.n > 0:
        lists.append((f"{words.n} random flips, seed {words.s}", random_flips(case, words.n, words.s)))
    if (len(case.accesses) + 1) * sum(case.counts) * len(BITS) <= SMALL:
        lists.append((f"every cell and place, bits {', '.join(map(str, BITS))}", all_flips(case)))
    return lists


def main():
    words = read_words()
    with tempfile.TemporaryDirectory() as work:
        text, program = printed_text(words, work)
        with open(os.path.join(work, "printed.c"), "w") as file:
            file.write(text)
        unit = tree.read(file.name)
        for name, made in ("text.c", hooked(text, unit)), ("hooked.h", header(text, unit)):
            with open(os.path.join(work, name), "w") as file:
                file.write(made)
        builds = [Build(work, compiler, level) for compiler in COMPILERS if found(compiler) for level in LEVELS]
        if not builds:
            stop(f"none of {', '.join(COMPILERS)} is installed")
        case = Case(unit, words.data, index_arrays(text, unit))
        first_run(case, builds, program)
        wrong = 0
        for title, flips in chosen(words, case):
            print(f"== {title}")
            wrong += tried(case, builds, program, flips, words.a)
    sys.exit(1 if wrong else 0)


if __name__ == "__main__":
    main()
