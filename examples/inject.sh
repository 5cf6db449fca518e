#!/usr/bin/env bash
# Shows on a real machine what the theorem says of a printed text: with one bit of one cell inverted before an access, it
# reports a fault exactly where the next access of this cell is a read.
#   examples/inject.sh [-n NUMBER] [-s SEED] [-a] SOURCE DATA [FLIP..]
# SOURCE is a source, or a text that `print` wrote; in BALANCE stands the program, if it isn't where `make build` leaves it.
#
# The text of `balance print SOURCE` gets a call before each access behind `begin`. The called function counts the accesses,
# and before the one at the flip's place it inverts the bit. This text is compiled by gcc, and by clang where it is installed,
# without and with optimization, and runs on the values in DATA: once without a flip, where the called function writes down
# the accesses, then under each FLIP file. Without one it runs under NUMBER flips of a generator that begins with SEED (1000
# and 1), and where the text is small under every place, cell and a few bits. A table shows which access of the cell is next,
# by the accesses of the first run, and what was reported: flip by flip, or (for more than 40, without -a) by array.
#
# It ends with 1 where any build does otherwise than is promised of the text:
# - the first run is balanced;
# - where the next access of the cell is a read, the fault is reported in this array alone; or, in an index array, in this
#   array among others, or at a check of an index;
# - else the text is balanced and leaves what it leaves without the flip, but for the bit itself where no access follows.
# Where the program takes the word FLIP, what it writes and its status are compared with the text's, too: under at most 200
# of the flips, chosen at random. Without a flip they always are.
#
# What this doesn't show: because of the calls a compiler loads a cell again at each read, as the called function may have
# changed it. In the text as it is printed it need not. Where it keeps a cell in a register from one access to the next
# (clang 14 -O2 does in shift.c), nothing reads memory there, and a flip in memory stays in its cell unnoticed. Flips before
# `begin`, in totals, words, loop variables or code, and two flips in one run, aren't tried.
set -eu
root=$(cd "$(dirname "$0")/.." && pwd)
export BALANCE=${BALANCE:-$root/bin/balance}
export PYTHONPATH=$root/benches PYTHONDONTWRITEBYTECODE=1
exec python3 "$root/examples/inject.py" "$@"
