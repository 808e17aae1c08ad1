#!/usr/bin/env bash
# compare.sh PROGRAM [ARGUMENT..]: gives every sheet beside this script to the program and compares what it prints with the table,
# byte for byte. Exits with 0 only if all agree.
set -u
shopt -s nullglob
here=$(cd "$(dirname "$0")" && pwd)
count=0
bad=0

for sheet in "$here"/*.sheet; do
  count=$((count + 1))
  if ! "$@" <"$sheet" | cmp -s - "${sheet%.sheet}.table"; then
    echo "examples: $*: not the table of $(basename "$sheet")"
    bad=1
  fi
done

# A table without a sheet would never be compared; convert.sh and formula.sh compare those of refused conversions and formulas.
for table in "$here"/*.table; do
  name=${table%.table}
  if [ ! -e "$name.sheet" ] && [ ! -e "$name.old" ] && [ ! -e "$name.formula" ]; then
    echo "examples: $(basename "$table") has no sheet"
    bad=1
  fi
done

[ $count -gt 0 ] || bad=1
[ $bad -eq 0 ] && echo "examples: $*: $count sheets as expected"
exit $bad
