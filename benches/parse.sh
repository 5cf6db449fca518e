#!/usr/bin/env bash
# Times the reading of texts: `balance run` reads a text whole before it refuses or runs it, and none of these is run.
# For each size the fastest of three runs in processor time (user and system), and the most memory.
#   assignments  a printed text of assignments alone, with gcc -fsyntax-only on the same text beside it
#   parentheses, braces  that mark alone
#   comment      one comment
#   benches/parse.sh [PROGRAM]
set -eu
. "$(dirname "$0")/setup.sh" "${1:-}"
python3 - "$program" "$folder" <<'PY'
import os, sys
from measure import fastest, measured

program, folder = sys.argv[1:]
LIMIT = 16_777_216
PREAMBLE = """#include <stdint.h>
#include <stdlib.h>
static inline uint64_t umin(uint64_t a, uint64_t b) { return a < b ? a : b; }
static inline uint64_t umax(uint64_t a, uint64_t b) { return a < b ? b : a; }
static inline int64_t bal_min(int64_t a, int64_t b) { return a < b ? a : b; }
static inline int64_t bal_max(int64_t a, int64_t b) { return a < b ? b : a; }
static inline unsigned __int128 bal_wide(uint64_t h, uint64_t l) { return (unsigned __int128)h << 64 | l; }
"""
HEAD = PREAMBLE + """#pragma balance version 1
#pragma balance range n 1 1000
uint64_t bal_fn_long(int64_t n) {
  uint64_t bal_w = 0ull;
#pragma balance begin
"""
TAIL = "  return 0;\n}\n"
LINE = "  bal_w = (bal_w + 17ull) * 3ull;\n"

def assignments(size):
    lines = (size - len(HEAD) - len(TAIL)) // len(LINE)
    return HEAD + LINE * lines + TAIL

KINDS = [
    ("assignments", assignments),
    ("parentheses", lambda size: "(" * size),
    ("braces", lambda size: "{" * size),
    ("comment", lambda size: "/*" + " " * (size - 4) + "*/"),
]

def show(kind, size, words):
    run = fastest(words, rounds=3, once=measured)
    said, a_megabyte = run.said.replace(folder + "/", "")[:60], run.seconds * 1e6 / size
    print(f"{kind:12} {size:10} {run.seconds:8.3f} {run.memory / 1e6:7.0f} {a_megabyte:7.4f}   {said}", flush=True)

print(f"{'text':12} {'bytes':>10} {'seconds':>8} {'MB':>7} {'s a MB':>7}   answer")
for kind, make in KINDS:
    for size in (1 << 20, 4 << 20, LIMIT):
        name = os.path.join(folder, kind + ".c")
        with open(name, "w") as file:
            file.write(make(size))
        show(kind, size, [program, "run", name, "none"])
        if kind == "assignments":
            show("  gcc", size, ["gcc", "-std=gnu17", "-w", "-fsyntax-only", name])
PY
