# What the tests of a program share. It reads a text on standard input and prints another one.
# begin NAME PROGRAM comes first: the program's own name, which begins its messages, and its file; $work is a folder of the test's own.
# finish comes last: it prints how many tests passed and answers whether all did.

begin() {
  name=$1
  program=$2
  passed=0
  failed=0
  work=$(mktemp -d) || exit 1
  trap 'rm -rf "$work"' EXIT
}

finish() {
  echo "$name: $passed passed, $failed failed"
  [[ $failed -eq 0 ]]
}

# verdict NAME: counts the test by the status of the command before
verdict() {
  if [[ $? -eq 0 ]]; then
    passed=$((passed + 1))
  else
    failed=$((failed + 1))
    echo "$name: failed: $1"
  fi
}

# run: the program on the input that is given
run() {
  "$program" >"$work/out" 2>"$work/err"
  status=$?
}

# prints NAME FILE: the program wrote this file, byte for byte, and nothing else
prints() {
  [[ $status -eq 0 && ! -s $work/err ]] && cmp -s "$work/out" "$2"
  verdict "$1"
}

# refuses NAME NUMBER: the program wrote the line of this refusal, and nothing else
refuses() {
  printf 'refused\t%s\t-\t-\n' "$2" >"$work/line"
  prints "$1" "$work/line"
}

# refused TEXT NUMBER: the program refuses this text, in which backslashes mean what they mean to printf
refused() {
  run < <(printf '%b' "$1")
  refuses "refused by $2: $1" "$2"
}

# complains NAME WHERE: the program wrote nothing, and on standard error a message that says where it failed
complains() {
  [[ $status -eq 0 && ! -s $work/out ]] && grep -q "^$name: $2: ." "$work/err"
  verdict "$1"
}

# zeros COUNT: so many bytes 0
zeros() {
  head -c "$1" /dev/zero
}

# pieces FILE: its bytes, five at a time
pieces() {
  local at=1
  while [[ $at -le $(wc -c <"$1") ]]; do
    tail -c "+$at" "$1" | head -c 5
    sleep 0.05
    at=$((at + 5))
  done
}

# sample FILE: what is printed for $work/sample, at once and in pieces
sample() {
  run <"$work/sample"
  prints 'the sample' "$1"
  run < <(pieces "$work/sample")
  prints 'the sample in pieces' "$1"
}

# input_of_any_length MOST OTHER ZEROS: the number of bytes has to be 1 to MOST, any other is refused by OTHER, and bytes 0 by ZEROS; then
# every byte from 0 to 255
input_of_any_length() {
  run </dev/null
  refuses 'no input' "$2"
  run < <(zeros "$1")
  refuses "$1 bytes" "$3"
  run < <(zeros $(($1 + 1)))
  refuses "$1 bytes and one more" "$2"
  run < <(zeros "$1" && sleep 0.2 && zeros 1)
  refuses "$1 bytes and one that comes late" "$2"
  zeros 1048576 >"$work/megabyte"
  run <"$work/megabyte"
  refuses 'a megabyte' "$2"
  run < <(cat "$work/megabyte")
  refuses 'a megabyte through a pipe' "$2"
  local byte
  for ((byte = 0; byte < 256; byte++)); do
    printf "\\x$(printf '%02x' "$byte")"
  done >"$work/bytes"
  run <"$work/bytes"
  refuses 'binary input' "$3"
}

# reads_and_writes_that_fail: each is told, with $work/sample as input where a write fails
reads_and_writes_that_fail() {
  run <&-
  complains 'closed input' 'standard input'
  run <"$work"
  complains 'a folder as input' 'standard input'
  : >"$work/out"
  "$program" <"$work/sample" 2>"$work/err" >&-
  status=$?
  complains 'closed output' 'standard output'
  "$program" <"$work/sample" 2>"$work/err" >/dev/full
  status=$?
  complains 'output that is full' 'standard output'
}
