#!/usr/bin/env bash
# The skeleton program on whole sheets, on input that is none, and where reading or writing fails.
# Usage: tests/skeleton.sh [PROGRAM]. Without one it is target/bin/skeleton, which is built where it is missing.
set -u
cd "$(dirname "$0")/.." || exit 1
program=${1:-target/bin/skeleton}
[[ $# -gt 0 || -x $program ]] || scripts/make skeleton || exit 1
. tests/parts/program.sh
begin skeleton "$program"

# the sample sheet: its whole table
printf 'p:Hut\tt:Gain\n1\t1\n1\t2\n2\t1\n2\t2\n' >"$work/sample"
printf 'stratum\tsource\tdf\nU\tU\t1\nU\t=total\t1\nHut\t=total\t1\nE\tGain\t1\nE\t=residual\t1\nE\t=total\t2\n=all\t=total\t4\n' >"$work/table"
sample "$work/table"

input_of_any_length 32768 2 3
reads_and_writes_that_fail

# a sheet that has to be converted first
refused 'p:Bench\tp:Section/Bench\n1\t1\n' 3

# the examples
bash examples/compare.sh "$program"
verdict 'the examples'

finish
