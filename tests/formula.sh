#!/usr/bin/env bash
# The program formula on whole formulas, on input that is none, and where reading or writing fails.
# Usage: tests/formula.sh [PROGRAM]. Without one it is target/bin/formula, which is built where it is missing.
set -u
cd "$(dirname "$0")/.." || exit 1
program=${1:-target/bin/formula}
[[ $# -gt 0 || -x $program ]] || scripts/make formula || exit 1
. tests/parts/program.sh
begin formula "$program"

# two huts of two piers, and the sheet that is made of it
printf 'Hut=2/Pier=2' >"$work/sample"
printf 'p:Hut\tp:Pier\n1\t1\n1\t2\n2\t3\n2\t4\n' >"$work/sheet"
sample "$work/sheet"

# one line end at the very end belongs to the input and not to the formula
run < <(cat "$work/sample" && echo)
prints 'a line end' "$work/sheet"
run < <(cat "$work/sample" && sleep 0.2 && echo)
prints 'a line end that comes late' "$work/sheet"
refused 'Hut=2/Pier=2\n\n' 17
refused 'Hut=2/Pier=2\r\n' 17
refused 'Hut=2/\nPier=2' 17
refused '\nHut=2/Pier=2' 17
refused '\n' 17

input_of_any_length 256 17 17
reads_and_writes_that_fail

# bracketed ITEM: in 126 pairs of brackets
bracketed() {
  printf '(%.0s' {1..126}
  printf '%s' "$1"
  printf ')%.0s' {1..126}
}

# the longest formula; a line end is one byte more
printf 'p:Aa\n1\n2\n' >"$work/sheet"
bracketed Aa=2 >"$work/longest"
[[ $(wc -c <"$work/longest") -eq 256 ]]
verdict 'the length of the longest formula'
run <"$work/longest"
prints 'the longest formula' "$work/sheet"
run < <(cat "$work/longest" && echo)
prints 'the longest formula and a line end' "$work/sheet"
run < <(cat "$work/longest" && echo && echo)
refuses 'the longest formula and two line ends' 17
run < <(bracketed Aaa=2)
refuses 'a formula of 257 bytes' 17
run < <(bracketed Aaa=2 && echo)
refuses 'a formula of 257 bytes and a line end' 17

# levels NAMES COLUMN..: a sheet of columns, each with one digit a plot
levels() {
  local plot column line
  printf 'p:%s' "${1// /$'\tp:'}"
  echo
  for ((plot = 0; plot < ${#2}; plot++)); do
    line=
    for column in "${@:2}"; do
      line+=$'\t'${column:plot:1}
    done
    echo "${line:1}"
  done
}

# becomes FORMULA NAMES COLUMN..: the sheet of these columns
becomes() {
  levels "${@:2}" >"$work/sheet"
  run <<<"$1"
  prints "$1" "$work/sheet"
}

# what is nested in what, worked out by hand
becomes 'Hut=3' 'Hut' 123
becomes 'Hut=2*Week=3' 'Hut Week' 111222 123123
becomes 'Hut=2/Pier=2/Sensor=2' 'Hut Pier Sensor' 11112222 11223344 12345678
becomes 'Hut=2/(Pier=2*Week=2)' 'Hut Pier Week' 11112222 11223344 12123434
becomes '(Hut=2*Week=2)/Pier=2' 'Hut Week Pier' 11112222 11221122 12345678
becomes '(Hut=2/Pier=2)*Week=2' 'Hut Pier Week' 11112222 11223344 12121212
becomes 'Week=2*(Hut=2/Pier=2)' 'Week Hut Pier' 11112222 11221122 12341234
becomes '((Hut=2)/((Pier=2)))' 'Hut Pier' 1122 1234

# six crossed names: refused-08.sheet, but for the names
sed '1s/.*/p:Aa\tp:Bb\tp:Cc\tp:Dd\tp:Ee\tp:Ff/' examples/refused-08.sheet >"$work/sheet"
run <<<'Aa=2*Bb=2*Cc=2*Dd=2*Ee=2*Ff=2'
prints 'six names' "$work/sheet"

# the longest sheet: as many plots and names as there may be, each nested in those before it
awk 'BEGIN {
  print "p:Longestnam01\tp:Longestnam02\tp:Longestnam03\tp:Longestnam04\tp:Longestnam05\tp:Longestnam06"
  OFS = "\t"
  for (u = 0; u < 240; u++) print int(u / 80) + 1, int(u / 16) + 1, int(u / 8) + 1, int(u / 4) + 1, int(u / 2) + 1, u + 1
}' >"$work/sheet"
[[ $(wc -c <"$work/sheet") -eq 4074 ]]
verdict 'the length of the longest sheet'
run <<<'Longestnam01=3/Longestnam02=5/Longestnam03=2/Longestnam04=2/Longestnam05=2/Longestnam06=2'
prints 'the longest sheet' "$work/sheet"

# no formula
for text in A=2 Aaaaaaaaaaaaa=2 2a=2 Aa Aa= =2 2 Aa=0 Aa=1 Aa=02 Aa=241 Aa=2562 Aa=18446744073709551618 Aa=+2 Aa=2.5 'Aa = 2' Aa==2 Ää=2 \
  Aa=2/ /Aa=2 Aa=2//Bb=2 Aa=2+Bb=2 Aa=2:Bb=2 'Aa=2*Bb=2/Cc=2' 'Aa=2/(Bb=2/Cc=2*Dd=2)' '()' '(Aa=2' 'Aa=2)' '(Aa=2))' ')Aa=2(' \
  '(Aa=2)(Bb=2)' 'Aa=2(Bb=2)' '(Aa=2)Bb=2' '(Aa)=2' 'Aa=(2)' Aa=2/Aa=2 '(Aa=2*Bb=2)/Aa=3' 'Aa=2\0'; do
  refused "$text" 17
done

# too many names or plots; only what is a formula
seven=Aa=2/Bb=2/Cc=2/Dd=2/Ee=2/Ff=2/Gg=2
refused "$seven" 18
refused "$seven/" 17
refused "$seven/Aa=2" 17
refused 'Hut=121/Pier=2' 18
refused 'Hut=240*Week=240' 18
refused 'Hut=240*Week=241' 17
refused "$(printf '%s=240/' A{a..z} B{a..h})Bi=240" 18

# the examples
bash examples/formula.sh "$program"
verdict 'the examples'

finish
