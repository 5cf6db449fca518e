#!/usr/bin/env bash
# Shows shift.c, its guarded text, and a run of that on shift.data: by the proved program where `make build` has made
# it from these sources, and else by the program as it is before its proofs.
set -eu
cd "$(dirname "$0")/.."
echo '== shift.c'
cat examples/shift.c
if make -q bin/balance > /dev/null; then
  echo '== print shift.c'
  bin/balance print examples/shift.c
  echo '== try shift.c shift.data'
  bin/balance try examples/shift.c examples/shift.data
  exit
fi

# A case is a file, the words of the command, and {} for the file among them.
work=$(mktemp -d)
trap 'rm -rf "$work"' EXIT
mkdir "$work/cases"
cp examples/shift.c "$work/cases/print shift.c"
printf 'print\n{}\n' > "$work/cases/print shift.c.args"
cp examples/shift.data "$work/cases/try shift.c shift.data"
printf 'try\nshift.c\n{}\n' > "$work/cases/try shift.c shift.data.args"
source=$PWD/examples/shift.c
cd crates/balance_cli
rt try --data "shift.c=$source" --cases "$work/cases" 2> "$work/log" || { cat "$work/log" >&2; exit 1; }
echo 'This run is not proved: "make build" proves the program (about an hour and a half of processor from nothing), and "make run" then shows the proved one.'
