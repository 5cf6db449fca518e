# What the scripts of this folder begin with, as `. "$(dirname "$0")/setup.sh" PROGRAM`: the folder of benches, the
# program (bin/balance where none is given), and a folder to work in that goes when the script ends.
benches=$(cd "$(dirname "${BASH_SOURCE[0]}")" && pwd)
program=${1:-$benches/../bin/balance}
[ -x "$program" ] || { echo "benches/$(basename "$0"): no program at $program (make build)" >&2; exit 1; }
folder=$(mktemp -d)
trap 'rm -rf "$folder"' EXIT
export PYTHONPATH=$benches PYTHONDONTWRITEBYTECODE=1
