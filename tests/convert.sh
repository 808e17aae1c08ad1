#!/usr/bin/env bash
# The program convert on whole sheets, on input that is none, and where reading or writing fails.
# Usage: tests/convert.sh [PROGRAM]. Without one it is target/bin/convert, which is built where it is missing.
set -u
cd "$(dirname "$0")/.." || exit 1
program=${1:-target/bin/convert}
[[ $# -gt 0 || -x $program ]] || scripts/make convert || exit 1
. tests/parts/program.sh
begin convert "$program"

# sections numbered anew on each bench, and the sheet that is made of it
printf 'p:Bench\tp:Section/Bench\n1\t1\n1\t2\n2\t1\n2\t2\n' >"$work/sample"
printf 'p:Bench\tp:Section\n1\t1\n1\t2\n2\t3\n2\t4\n' >"$work/sheet"
sample "$work/sheet"
run <"$work/sheet"
prints 'the converted sheet again' "$work/sheet"

input_of_any_length 32768 2 3
reads_and_writes_that_fail

# the longest sheet that is converted, and what becomes of it: only the numbers within parents change
{
  printf 'p:Longestnam01'
  printf '\tp:Longestnam%02d/Longestnam%02d' 2 1 3 2 4 3 5 4 6 5
  printf '\tt:Longestnam%02d' 7 8 9 10 11 12
  printf '\n'
  for ((plot = 0; plot < 240; plot++)); do
    printf '4294967295\t1000000000\t1000000000\t1000000000\t1000000000\t1000000000\t'
    printf '4294967295\t4294967295\t4294967295\t4294967295\t4294967295\t4294967295\n'
  done
} >"$work/longest"
[[ $(wc -c <"$work/longest") -eq 31925 ]]
verdict 'the length of the longest sheet'
sed 's/1000000000/1/g; s|/Longestnam..||g' "$work/longest" >"$work/sheet"
run <"$work/longest"
prints 'the longest sheet' "$work/sheet"

# refusals
refused 'p:Bench\tt:Dose/Bench\n1\t1\n' 3
refused 'p:Section/Bench\tp:Bench\n1\t1\n1\t0\n' 4
refused 'p:Section/Bench\tp:Bench\n' 5
refused 'p:Section/Bench\tp:Bench\n1\t1\n' 23

# the examples
bash examples/convert.sh "$program"
verdict 'the examples'

finish
