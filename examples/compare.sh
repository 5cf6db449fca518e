#!/usr/bin/env bash
# What real C makes of the examples, beside what the program makes of them: for each X.c here that has an X.data, by gcc,
# and by clang where it is installed,
# - the printed text, compiled and called on the values of X.data, leaves the arrays and the verdict that `try` writes;
# - the source itself, compiled and called on these, leaves the arrays that `run` writes.
# The outputs are compared byte for byte, and the statuses too. No compiler warns of a printed text.
# The argument is the program, if it isn't where `make build` leaves it.
set -eu
cd "$(dirname "$0")/.."
program=${1:-$PWD/bin/balance}
work=$(mktemp -d)
trap 'rm -rf "$work"' EXIT
flags='-std=gnu17 -O2 -Wall -Wextra -Wno-unknown-pragmas -Wno-unused-function -Werror'

# Rows of a data file, by name, and arrays as they are written.
cat > "$work/rows.h" <<'C'
#include <inttypes.h>
#include <stdint.h>
#include <stdio.h>
#include <stdlib.h>
#include <string.h>

static const char *data_file;

/* The text behind the `NAME =` of a row. */
static char *row(const char *name) {
  FILE *file = fopen(data_file, "r");
  char *line = 0;
  size_t room = 0, length = strlen(name);
  while (file && getline(&line, &room, file) > 0)
    if (strncmp(line, name, length) == 0 && strncmp(line + length, " = ", 3) == 0) {
      fclose(file);
      return line + length + 2;
    }
  fprintf(stderr, "no row %s\n", name);
  exit(2);
}

static int64_t parameter(const char *name) {
  return strtoll(row(name), 0, 10);
}

static uint64_t *cells(const char *name, int64_t count) {
  uint64_t *made = malloc(count * sizeof *made);
  char *text = row(name);
  for (int64_t k = 0; k < count; k++) made[k] = strtoull(text, &text, 10);
  return made;
}

static void show(const char *name, const uint64_t *array, int64_t count) {
  printf("%s =", name);
  for (int64_t k = 0; k < count; k++) printf(" %" PRIu64, array[k]);
  printf("\n");
}
C

# The parameters of the function of a source, one a line.
parameters() { # SOURCE
  sed -n 's/^void [A-Za-z_0-9]*(\(.*\)) {$/\1/p' "$1" | tr ',' '\n' | sed 's/^ *//'
}

# A main that reads the rows, calls the function of the printed text or of the source, and shows what is left.
driver() { # SOURCE NAME guarded|plain
  local parameter name extents call='' shown='' arrays=''
  printf '#include "text.c"\n#include "rows.h"\nint main(int count, char **words) {\n'
  printf '  if (count != 2) return 2;\n  data_file = words[1];\n'
  while read -r parameter; do
    name=$(printf %s "$parameter" | sed 's/\[.*//; s/.* //')
    extents=$(printf %s "${parameter#"${parameter%%\[*}"}" | sed 's/\]\[/) * (/g; s/\[/(/; s/\]/)/')
    case $parameter in
      int64_t*) printf '  int64_t %s = parameter("%s");\n' "$name" "$name" ;;
      *) printf '  uint64_t *%s_cells = cells("%s", %s);\n' "$name" "$name" "$extents" ;;
    esac
    case $parameter in
      int64_t*) call="$call, $name" ;;
      *) call="$call, (void *)${name}_cells"; arrays="$arrays \"$name\"," ;;
    esac
    case $parameter in
      uint64_t*) shown="$shown  show(\"$name\", ${name}_cells, $extents);
" ;;
    esac
  done < <(parameters "$1")
  if [ "$3" = plain ]; then
    printf '  %s(%s);\n%s  printf("plain\\n");\n  return 0;\n}\n' "$2" "${call#, }" "$shown"
  else
    printf '  const char *arrays[] = {%s};\n  uint64_t word = bal_fn_%s(%s);\n%s' "$arrays" "$2" "${call#, }" "$shown"
    cat <<'C'
  int number = sizeof arrays / sizeof *arrays;
  for (int a = 0; a < number; a++)
    if (word >> (16 + a) & 1) printf("index %s\n", arrays[a]);
  if (word == 0) printf("balanced\n");
  if (word & 0xffff) printf("fault");
  for (int a = 0; a < number; a++)
    if (word >> a & 1) printf(" %s", arrays[a]);
  if (word & 0xffff) printf("\n");
  return word != 0;
}
C
  fi
}

# Compiles the text at hand with its driver, calls it, and compares with what the program wrote.
beside() { # COMPILER WHAT DATA
  local status=0
  # shellcheck disable=SC2086
  "$1" $flags -I "$work" -o "$work/made" "$work/driver.c"
  "$work/made" "$3" > "$work/got" || status=$?
  cmp "$work/wanted" "$work/got" || { echo "$1 and $2 differ" >&2; exit 1; }
  [ "$status" = "$(cat "$work/status")" ] || { echo "$1 and $2 end with other statuses" >&2; exit 1; }
}

# What the program writes, and how it ends.
wanted() { # COMMAND SOURCE DATA
  local status=0
  "$program" "$1" "$2" "$3" > "$work/wanted" || status=$?
  echo "$status" > "$work/status"
}

compilers=$(for c in gcc clang; do command -v "$c" > /dev/null && echo "$c"; done)
for data in examples/*.data; do
  source=${data%.data}.c
  name=$(sed -n 's/^void \([A-Za-z_0-9]*\)(.*/\1/p' "$source")
  for kind in plain guarded; do
    case $kind in
      plain) wanted run "$source" "$data"; cp "$source" "$work/text.c" ;;
      guarded) wanted try "$source" "$data"; "$program" print "$source" > "$work/text.c" ;;
    esac
    driver "$source" "$name" "$kind" > "$work/driver.c"
    for compiler in $compilers; do beside "$compiler" "$kind $source" "$data"; done
  done
  echo "$source: as the program says"
done
