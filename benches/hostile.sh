#!/usr/bin/env bash
# Gives the program each text of crates/hostile_tests, with 16,777,216 bytes: opening marks, unclosed and closed, and
# much of what is flat. Each must be answered as the tables there say, by its status and the line on the error stream:
# tokens and no unit, no tokens, or a unit, which is refused by a number or else comes to its data file, and there is
# none. A text that overflowed the stack would end by a signal. Prints the processor time and the most memory of each,
# and ends with 1 where an answer is another.
#   benches/hostile.sh [PROGRAM] [BYTES]
set -eu
. "$(dirname "$0")/setup.sh" "${1:-}"
bytes=${2:-16777216}
python3 - "$program" "$folder" "$bytes" "$benches/.." <<'PY'
import ast, os, re, sys
from measure import measured

program, folder, size, root = sys.argv[1], sys.argv[2], int(sys.argv[3]), sys.argv[4]
with open(os.path.join(root, "crates/hostile_tests/src/hostile.rt")) as file:
    TABLES = file.read()
with open(os.path.join(root, "examples/shift.guarded.c")) as file:
    PREAMBLE = "".join(file.readlines()[:7])

def strings(text):
    return [ast.literal_eval(one) for one in re.findall(r'"(?:[^"\\]|\\.)*"', text)]

def table(name, width):
    """The strings of a table of the tests, so many a row, and its numbers."""
    head, body = re.search(rf"const {name}: \[.*?; (\d+)\] = \[(.*?)\n\];", TABLES, re.S).groups()
    all_strings = strings(body)
    rows = [all_strings[i : i + width] for i in range(0, len(all_strings), width)]
    assert len(rows) == int(head) and len(rows[-1]) == width, name
    numbers = [int(n) for n in re.findall(r"(\d+)\b", re.sub(r'"(?:[^"\\]|\\.)*"', "", body))]
    return rows, numbers

# What refuses a unit, by the piece or the core that it has; the others are accepted.
REFUSED = {
    "#pragma balance range n 1 2\n": "S7 BadRange in item 0",
    "int64_t n, ": "S4 NameTwice in item 0",
    "uint64_t s = 0; ": "S4 NameTwice in item 0",
    "x = 1;": r"S8 TooMany statements \d+ in item 0",
    "{": "S13 WrongDimensions in item 1",
}
ACCEPTED = "cannot read none"

def texts():
    """Each text as its five parts, and the line that answers it."""
    syntax = r"S3 Syntax at byte \d+"
    for name in ("IN_EXPRESSIONS", "IN_CONDITIONS", "IN_STATEMENTS", "IN_HEADS"):
        for front, piece in table(name, 2)[0]:
            yield [front, piece, "", "", ""], syntax
    behind = strings(re.search(r"const PRINTED_FRONT: &str =(.*?\");", TABLES, re.S).group(1))[0]
    for front, piece in table("IN_PRINTED_TEXTS", 2)[0]:
        yield [PREAMBLE + behind + front, piece, "", "", ""], syntax
    rows, places = table("WITHOUT_TOKENS", 2)
    for (front, piece), byte in zip(rows, places, strict=True):
        yield [front, piece, "", "", ""], f"S2 Lexical at byte {byte}"
    for name in ("CLOSED_UNITS", "FLAT_UNITS"):
        for parts in table(name, 5)[0]:
            yield parts, REFUSED.get(parts[1], ACCEPTED)
    for parts in table("CLOSED_OTHERS", 5)[0]:
        yield parts, syntax

name, wrong, count, most_time, most_memory = os.path.join(folder, "text.c"), 0, 0, 0, 0
print(f"{'seconds':>8} {'MB':>6}   text, and its answer")
for parts, line in texts():
    front, piece, core, close, back = (part.encode() for part in parts)
    copies = (size - len(front) - len(core) - len(back)) // (len(piece) + len(close))
    with open(name, "wb") as file:
        file.write(front + piece * copies + core + close * copies + back)
    run = measured([program, "run", name, "none"])
    status, answer = (3, line) if line == ACCEPTED else (5, f"{re.escape(name)}: {line}")
    right = run.status == status and re.fullmatch(f"balance: {answer}", run.said)
    wrong += not right
    count, most_time, most_memory = count + 1, max(most_time, run.seconds), max(most_memory, run.memory)
    shown = " .. ".join(repr(part[-40:])[1:-1] for part in parts if part)
    answer = run.said.replace(f"{name}: ", "").replace("balance: ", "")[:60] or f"status {run.status}"
    answer += "" if right else f"   WRONG, wanted {line}"
    print(f"{run.seconds:8.3f} {run.memory / 1e6:6.0f}   {shown}   {answer}", flush=True)
most = f"at most {most_time:.1f} s and {most_memory / 1e6:.0f} MB"
print(f"{count} texts of {size} bytes, {wrong} answered wrongly; {most}")
sys.exit(1 if wrong else 0)
PY
