#!/usr/bin/env bash
# formula.sh PROGRAM [ARGUMENT..]: gives every formula beside this script to the program and compares what it prints, byte for byte, with the
# sheet of the same name or, where there is none, with the refusal's line in the table. Exits with 0 only if all agree.
set -u
shopt -s nullglob
here=$(cd "$(dirname "$0")" && pwd)
count=0
bad=0

for formula in "$here"/*.formula; do
  count=$((count + 1))
  expected=${formula%.formula}.sheet
  [ -e "$expected" ] || expected=${formula%.formula}.table
  if ! "$@" <"$formula" | cmp -s - "$expected"; then
    echo "examples: $*: $(basename "$formula") does not become $(basename "$expected")"
    bad=1
  fi
done

[ $count -gt 0 ] || bad=1
[ $bad -eq 0 ] && echo "examples: $*: $count formulas as expected"
exit $bad
