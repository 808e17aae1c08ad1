#!/usr/bin/env bash
# Instructions of the whole table on each sheet, by the library and by the reference, as callgrind counts them.
# Usage: bench/instructions.sh. The archive is found as in compare/build.rs. It needs valgrind.
set -eu
cd "$(dirname "$0")"
command -v valgrind >/dev/null || { echo "instructions: valgrind is missing (apt-get install valgrind)" >&2; exit 2; }
cargo build --release --offline --quiet
work=$(mktemp -d)
trap 'rm -rf "$work"' EXIT

# Counting is on inside measured_calls alone; each return from it ends one file.
valgrind --tool=callgrind --callgrind-out-file="$work/counts" --toggle-collect=measured_calls --dump-after=measured_calls \
  target/release/bench --instructions >"$work/sheets" 2>"$work/log" || { cat "$work/log" >&2; exit 1; }

# count N: the instructions of the Nth measured call
count() {
  sed -n 's/^totals: //p' "$work/counts.$1"
}

printf '%-38s%7s%7s  %-11s%12s%12s%8s\n' sheet bytes plots members library reference ratio
at=0
while IFS=$'\t' read -r title bytes plots members; do
  library=$(count $((at + 1)))
  reference=$(count $((at + 2)))
  at=$((at + 2))
  ratio=$(awk -v a="$library" -v b="$reference" 'BEGIN { printf "%.2f", a / b }')
  printf '%-38s%7s%7s  %-11s%12s%12s%8s\n' "$title" "$bytes" "$plots" "$members" "$library" "$reference" "$ratio"
done <"$work/sheets"
