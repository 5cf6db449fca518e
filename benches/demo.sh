#!/usr/bin/env bash
# Times demonstrations, the fastest of runs in processor time, and the most memory. Ends with 1 where one takes more than
# 10 seconds or 200 MB.
#   33 34   a product of matrices of 16 rows; 16 sweeps over 16 cells; each the fastest of three
#   to 60   the slowest and the largest of `demo 0` to `demo 60`, once each
#   benches/demo.sh [PROGRAM]
set -eu
. "$(dirname "$0")/setup.sh" "${1:-}"
python3 - "$program" <<'PY'
import sys
from measure import fastest

program = sys.argv[1]
MOST_SECONDS, MOST_MB = 10.0, 200.0
is_over = False

def timed(number, rounds):
    global is_over
    run = fastest([program, "demo", str(number)], rounds=rounds)
    is_over = is_over or run.seconds > MOST_SECONDS or run.memory > MOST_MB * 1e6
    return run.seconds, run.memory / 1e6

print("demo      seconds       MB")
for number in (33, 34):
    seconds, megabytes = timed(number, 3)
    print(f"{number:<8} {seconds:8.3f} {megabytes:8.1f}")
rows = [timed(number, 1) for number in range(61)]
print(f"to 60    {max(s for s, _ in rows):8.3f} {max(m for _, m in rows):8.1f}")
sys.exit(is_over)
PY
