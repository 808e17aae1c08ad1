#!/usr/bin/env bash
# `./plan` as a user meets it: README shows the example's sheet and what is printed for it; the tables of all examples, the sheets of formulas,
# how two factors stand, and the exit statuses.
set -u
cd "$(dirname "$0")/.." || exit 1
work=$(mktemp -d) || exit 1
trap 'rm -rf "$work"' EXIT
bad=0

# complain WHAT
complain() {
  echo "plan: $1"
  bad=1
}

# The code blocks of README, one file each.
awk -v work="$work" '/^```/ { inside = !inside; number += inside; next } inside { print >(work "/block-" number) }' README.md

# shown FILE NAME: README has a block with this text
shown() {
  local block
  for block in "$work"/block-*; do
    ! cmp -s "$block" "$1" || return 0
  done
  complain "README does not show $2"
}

./plan >"$work/table" 2>"$work/err" || { cat "$work/err"; complain 'it fails without a file'; }
shown examples/huts.sheet 'the sheet'
shown "$work/table" 'what ./plan prints'
shown examples/huts.table 'what skeleton prints'
./plan --formula 'Hut=4/Pier=3' >"$work/table" 2>"$work/err" || { cat "$work/err"; complain 'it fails with a formula'; }
shown "$work/table" 'the table of a formula'

count=0
for sheet in examples/*.sheet examples/*.old examples/*.formula; do
  count=$((count + 1))
  table=${sheet%.*}.table
  [[ $sheet == *.formula ]] && given=(--formula "$(cat "$sheet")") || given=("$sheet")
  ./plan --tsv "${given[@]}" >"$work/out" 2>"$work/err"
  status=$?
  if grep -q '^refused' "$table"; then
    [[ $status -eq 1 && -s $work/err ]] || complain "$sheet: status $status, or no message"
  else
    [[ $status -eq 0 ]] && cmp -s "$work/out" "$table" || complain "$sheet: status $status, or not its table"
  fi
done
# the sheets
for sheet in examples/*.formula examples/*.old; do
  [[ $sheet == *.formula ]] && given=(formula "$(cat "$sheet")") || given=(convert "$sheet")
  [[ -e ${sheet%.*}.sheet ]] || continue
  ./plan "${given[@]}" 2>&1 | cmp -s - "${sheet%.*}.sheet" || complain "$sheet: not its sheet"
done
# how two factors stand, also in a refused sheet
./plan compare examples/huts.sheet Filter Hut >"$work/out" 2>&1 || complain 'compare fails'
grep -qxF "    $(cat "$work/out")" README.md || complain 'README does not show how two factors stand'
[[ $(./plan compare examples/refused-13.sheet Hut Gain --tsv 2>&1) == $'compared\tHut\tGain\tnot orthogonal' ]] || complain 'compare in a refused sheet'
./plan compare examples/huts.sheet Filter Hat >"$work/out" 2>"$work/err"
[[ $? -eq 2 && ! -s $work/out && -s $work/err ]] || complain 'an unknown factor'
./plan "$work/missing" >"$work/out" 2>"$work/err"
[[ $? -eq 2 && ! -s $work/out && -s $work/err ]] || complain 'a missing file'

[[ $bad -eq 0 && $count -gt 0 ]] && echo "plan: README's screen and $count sheets and formulas as expected"
exit $bad
