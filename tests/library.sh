#!/usr/bin/env bash
# The library for other languages: the archive against the second implementation, its header, and the examples in C, Rust and Python.
# Numbering alone, which the header does not have, is compared from an archive of its own. RACHDOUM_LIB may name the folder of both
# archives (a path from the root); without it they are proved and made first.
set -u
cd "$(dirname "$0")/.." || exit 1
work=$(mktemp -d) || exit 1
trap 'rm -rf "$work"' EXIT
bad=0

# step NAME COMMAND..: runs a command; what it printed is shown only if it failed
step() {
  if "${@:2}" >"$work/log" 2>&1; then
    echo "library: $1"
  else
    echo "library: failed: $1"
    tail -n 40 "$work/log"
    bad=1
  fi
}

# tests_of TABLE: what the examples say after the table. A treatment is tested against the residual of its stratum, where there is one.
# Two names in a refusal are those of the first members that are not orthogonal; a file beside the table (.pairs) has the others.
tests_of() {
  local pairs=${1%.table}.pairs
  { [[ ! -e $pairs ]] || cat "$pairs"; awk -F'\t' '
    $1 == "refused" { print "Question " $2 " fails (docs/REFUSALS.md)." }
    $1 == "refused" && $4 != "-" { print $3 " and " $4 " are not orthogonal" }
    $2 == "=residual" { residual[$1] = $3 }
    NR > 1 && $1 != "U" && $2 !~ /^=/ { stratum[++count] = $1; source[count] = $2 " (" $3 " df)" }
    END {
      for (i = 1; i <= count; i++)
        if (stratum[i] in residual) print source[i] " is tested in " stratum[i] " against " residual[stratum[i]] " df"
        else print source[i] " cannot be tested: no residual in " stratum[i]
    }' "$1"; } | sort
}

# status_of TABLE: 1 for a refusal
status_of() {
  grep -q '^refused' "$1" && echo 1 || echo 0
}

# A sheet with a treatment that cannot be tested: two huts with six piers each, a filter for each hut, every gain twice in each. Worked out
# by hand: U 1, Hut 1, E 10 degrees of freedom; Filter takes the one of Hut, Gain 2 and the two together 2 of those of E.
mkdir "$work/sheets"
{
  printf 'p:Hut\tt:Filter\tt:Gain\n'
  for plot in '1 1 1' '1 1 2' '1 1 3' '1 1 1' '1 1 2' '1 1 3' '2 2 1' '2 2 2' '2 2 3' '2 2 1' '2 2 2' '2 2 3'; do
    tr ' ' '\t' <<<"$plot"
  done
} >"$work/sheets/untested.sheet"
tr ' ' '\t' >"$work/sheets/untested.table" <<'END'
stratum source df
U U 1
U =total 1
Hut Filter 1
Hut =total 1
E Gain 2
E I(Filter,Gain) 2
E =residual 6
E =total 10
=all =total 12
END
if [[ $(tests_of "$work/sheets/untested.table" | head -n 1) != 'Filter (1 df) cannot be tested: no residual in Hut' ]]; then
  echo 'library: the test itself does not see what cannot be tested'
  bad=1
fi

# Three ways to pair six plots, no pair twice: no two of them are orthogonal. A cell of two pairs that meet has 1 plot of 6, and 1 × 6 is not
# 2 × 2.
tr ' ' '\t' >"$work/sheets/three-pairs.sheet" <<'END'
p:Hut p:Week p:Pier
1 1 1
1 2 2
2 1 3
2 3 1
3 2 3
3 3 2
END
printf 'refused\t10\tHut\tWeek\n' >"$work/sheets/three-pairs.table"
printf '%s and Pier are not orthogonal\n' Hut Week >"$work/sheets/three-pairs.pairs"

# arguments_for FILE: what the examples are called with; a formula stands in the call itself
arguments_for() {
  [[ $1 == *.formula ]] && given=(--formula "$(cat "$1")") || given=("$1")
}

# tables NAME COMMAND..: the command prints the table of each sheet, an empty line and how each treatment is tested; one numbered within
# parents (.old) and a formula have the table of the sheet that is made of them. It ends with 1 after a refusal, and with 2, a message and
# no table where there is no such file or no file is named
tables() {
  local sheet table status given count=0 wrong=0
  for sheet in examples/*.sheet examples/*.old examples/*.formula "$work"/sheets/*.sheet; do
    count=$((count + 1))
    table=${sheet%.*}.table
    arguments_for "$sheet"
    "${@:2}" "${given[@]}" >"$work/out" 2>"$work/err"
    status=$?
    if ! sed '/^$/,$d' "$work/out" | cmp -s - "$table"; then
      echo "library: $1: not the table of $sheet"
      wrong=1
    elif [[ $(sed '1,/^$/d' "$work/out" | sort) != "$(tests_of "$table")" ]]; then
      echo "library: $1: not what is tested in $sheet"
      wrong=1
    elif [[ $status -ne $(status_of "$table") || -s $work/err ]]; then
      echo "library: $1: status $status or a message for $sheet"
      wrong=1
    fi
  done
  for sheet in "$work/missing" ''; do
    "${@:2}" ${sheet:+"$sheet"} >"$work/out" 2>"$work/err"
    if [[ $? -ne 2 || -s $work/out || $(wc -l <"$work/err") -ne 1 ]]; then
      echo "library: $1: no message for ${sheet:-no file}"
      wrong=1
    fi
  done
  [[ $count -gt 1 && $wrong -eq 0 ]] && echo "library: $1: $count sheets and formulas as expected" || bad=1
}

# same_constants: the examples that cannot include the header have its lengths, its type of a level and its number of an answer
same_constants() {
  local word value bits
  value=$(sed -n 's/^  RACHDOUM_NOT_ORTHOGONAL = \([0-9]*\)$/\1/p' include/rachdoum.h)
  grep -q "^    pub const NOT_ORTHOGONAL: u64 = $value;$" examples/library.rs && grep -q "^NOT_ORTHOGONAL = $value$" examples/library.py || return 1
  bits=$(sed -n 's/^typedef uint\([0-9]*\)_t rachdoum_level;$/\1/p' include/rachdoum.h)
  grep -q "^    pub type Level = u$bits;$" examples/library.rs && grep -q "^level = c_uint$bits$" examples/library.py || return 1
  for word in INTERACTION MEMBERS LEVELS FAMILY NAME TABLE SHEET; do
    value=$(sed -n "s/^#define RACHDOUM_$word \([0-9]*\).*/\1/p" include/rachdoum.h)
    grep -q "^    pub const $word: usize = $value;$" examples/library.rs && grep -q "^$word = $value$" examples/library.py || return 1
  done
}

# no_state: neither archive has memory of its own that a call could write to
no_state() {
  nm "$archive" "$RACHDOUM_LIB/libnumbering.a" >"$work/symbols" && ! grep -E ' [bBcCdDgGsSuvV] ' "$work/symbols"
}

# quiet_import: the example in Python does nothing when it is imported
quiet_import() {
  [[ -z $(PYTHONPATH=examples PYTHONDONTWRITEBYTECODE=1 python3 -c 'import library' 2>&1) ]]
}

if [[ -z ${RACHDOUM_LIB:-} ]]; then
  step 'archive' scripts/make rachdoum
  step 'archive of numbering alone' scripts/make numbering
  RACHDOUM_LIB=$PWD/target/staticlib
fi
export RACHDOUM_LIB
archive=$RACHDOUM_LIB/librachdoum.a

step 'header as C' gcc -Wall -Wextra -Werror -pedantic -std=c99 -fsyntax-only -x c include/rachdoum.h
step 'header as C++' g++ -Wall -Wextra -Werror -pedantic -std=c++11 -fsyntax-only -x c++ include/rachdoum.h
step 'header built against the archive' \
  gcc -Wall -Wextra -Werror -pedantic -std=c99 -pthread -o "$work/header" tests/header.c "$archive"
step 'lengths, levels, refusals and threads as the header says' timeout 60 "$work/header"
step 'no memory between calls' no_state

step 'comparison built' cargo build --release --offline --quiet --manifest-path compare/Cargo.toml
compare=${CARGO_TARGET_DIR:-compare/target}/release/compare
step 'faults put in on purpose are found' timeout 600 "$compare" --self-test
timeout 1800 "$compare" || bad=1

step 'example in C built' gcc -Wall -Wextra -Werror -pedantic -std=c99 -Iinclude -o "$work/library" examples/library.c "$archive"
tables 'example in C' "$work/library"
step 'example in Rust built' \
  rustc -O -D warnings -L "$RACHDOUM_LIB" -l static=rachdoum -o "$work/library-rust" examples/library.rs
tables 'example in Rust' "$work/library-rust"
step 'shared library built' \
  cc -shared -o "$work/librachdoum.so" -Wl,--whole-archive "$archive" -Wl,--no-whole-archive
tables 'example in Python' python3 examples/library.py "$work/librachdoum.so"
step 'example in Python imported' quiet_import
step 'constants of the examples' same_constants

exit $bad
