#!/usr/bin/env bash
# The prover refuses each must-fail edit where it should. `fails:` names what becomes false: a function, as `crate::module::function`, or
# functions that call each other, as `crate::module::+one+other`, or a law of the rules, as `crate::File::law`. A function has an error of
# its own: it does not count that a function it calls is not proved, nor that the proof names a step or a place that the edited code has
# not; a proof that names such a place is tried once more with the names that the edited code has. A law is refused itself, or rests on one
# that is. `rt ci` keeps no more of an edit than its first error, so each is tried here once more, on a copy of its crate. That what is
# refused is false, and not only written for other code, a reader has to see.
#
#     tests/edits.sh             the edits of all crates
#     tests/edits.sh CRATE..     those of some
set -u
cd "$(dirname "$0")/.." || exit 1
work=$(mktemp -d) || exit 1
trap 'rm -rf "$work"' EXIT
export work
named=0
bad=0

# complain EDIT WHAT
complain() {
  echo "edits: $1: $2"
  bad=1
}

# below CRATE: the crates of the repository that it stands on
below() {
  local crate
  for crate in $(sed -n "s/^$1\( [^:]*\)\?: *//p" crates.txt); do
    if [[ -d crates/$crate ]]; then
      echo "$crate"
      below "$crate"
    fi
  done
}

# log_of EDIT: where what was said of it stands
log_of() {
  local crate=${1#crates/}
  echo "$work/${crate%%/*}.$(basename "$1" .edit).log"
}

# what is said of a proof that names what the edit took away, and of what rests on what was refused
export misfit='has no field|has no `|is not in scope|(was|were) not checked'

# proof_of FUNCTION: where its proof stands, as a pattern; functions that call each other have one, under a name of its own
proof_of() {
  local path=${1#*::}
  [[ $path == *+* ]] && path="${path%%+*}\\+[^/]*"
  echo "proofs/${path//:://}"
}

# each_of FUNCTION: itself, or each of those that call each other
each_of() {
  local ends=${1#*+}
  if [[ $ends == "$1" ]]; then
    echo "$1"
  else
    echo "${1%%+*}${ends//+/ ${1%%+*}}"
  fi
}

# fails LOG FUNCTION: the function has an error of its own that is no misfit of its proof
fails() {
  local one
  for one in $(each_of "$2"); do
    grep -qE "^fn $one: no proof: .*\`search\` did not prove" "$1" && return
  done
  # What is missing may stand in the line after.
  sed -z 's/\n  has no / has no /g' "$1" | grep -aE "^(\./)?$(proof_of "$2")/[A-Za-z]*\.antt:[0-9]+:[0-9]+: error" | grep -qvE "$misfit"
}

# is_law EDIT NAME: the name is that of a law, which a file of proofs/ has; a method has the name of its type before its own
is_law() {
  local path=${2#*::}
  path=${path%::*}
  [[ $2 =~ ::[A-Z] && -e ${1%%/must-fail/*}/proofs/${path//:://}.antt ]]
}

# law_fails LOG LAW: the law, in the file of proofs/ that has it, is refused or rests on one that is
law_fails() {
  local path=${2#*::}
  local law=${path##*::}
  path=${path%::*}
  grep -E "^(\./)?proofs/${path//:://}\.antt:[0-9]+:[0-9]+: error: \`$law\`" "$1" | grep -qvE "$misfit" ||
    grep -qE "^(\./)?proofs/${path//:://}\.antt:[0-9]+:[0-9]+: error: .* not checked: (.*, )?$law( \(via|, | and |\$)" "$1" ||
    {
      ! grep -qE "^(\./)?proofs/Asked[0-9]+\.antt:[0-9]+:[0-9]+: error: module .* has no \`$law\`" "$1" &&
        grep -qE "^(\./)?proofs/Asked[0-9]+\.antt:[0-9]+:[0-9]+: error: .* depends on \`$law\`, which was (not admitted|rejected), " "$1"
    }
}

# fit ROOM EDIT FUNCTION: brings the names in the function's proof along with the code, and checks it once more
fit() {
  local crate=${2#crates/} one
  crate=${crate%%/*}
  one=$(each_of "$3")
  one=${one%% *}
  (
    cd "$1/crates/$crate" || exit
    rt check --generated "$1/new" --start "$one" --allow-holes >/dev/null 2>&1
    rt check --generated "$1/new/names" --old-names >/dev/null 2>&1
    mv src edited
    cp -a "$top/crates/$crate/src" src
    rt check --generated "$1/old" --start "$one" --allow-holes >/dev/null 2>&1
    rt check --generated "$1/old/names" --old-names >/dev/null 2>&1
    rm -rf src
    mv edited src
    find proofs -regextype posix-extended -regex "$(proof_of "$3")/[A-Za-z]*\.antt" -exec python3 "$top/tests/parts/places.py" "$1/old" "$1/new" {} +
    rm -rf "$1/old" "$1/new"
    rt check --jobs 1 --only "$one"
  ) </dev/null 2>&1
}

# try EDIT: checks a copy of its crate with it
try() {
  local crate=${1#crates/} log room one
  crate=${crate%%/*}
  log=$(log_of "$1")
  room=$(mktemp -d "$work/room.XXXXXX") || return
  mkdir "$room/crates"
  cp -a "crates/$crate" "$room/crates"
  rm -rf "$room/crates/$crate/must-fail"
  grep -E "^$crate( [^:]*)?:" crates.txt >"$room/crates.txt"
  for one in $(below "$crate" | sort -u); do
    cp -al "crates/$one" "$room/crates" 2>/dev/null || cp -a "crates/$one" "$room/crates"
    grep -E "^$one( [^:]*)?:" crates.txt >>"$room/crates.txt"
  done
  if python3 tests/parts/edit.py "$1" "$room/crates/$crate" >"$log" 2>&1; then
    (cd "$room/crates/$crate" && rt check --jobs 1) </dev/null >"$log" 2>&1
    for one in $(sed -n 's/^fails: //p' "$1"); do
      if ! is_law "$1" "$one" && ! fails "$log" "$one" && grep -E "^(\./)?$(proof_of "$one")/" "$log" | grep -qE "$misfit"; then
        fit "$room" "$1" "$one" >"$log.fit"
        cat "$log.fit" >>"$log"
      fi
    done
  fi
  rm -rf "$room"
}
export top=$PWD
export -f below log_of proof_of each_of is_law fails fit try

# The crates are proved as they stand: the tries begin with that.
if [[ $# -eq 0 ]]; then
  for folder in crates/*/must-fail; do
    set -- "$@" "$(basename "${folder%/*}")"
  done
fi
for crate in "$@"; do
  if ! (cd "crates/$crate" && rt check) </dev/null >"$work/$crate.log" 2>&1; then
    echo "edits: $crate is not proved as it stands"
    tail -n 20 "$work/$crate.log"
    exit 1
  fi
done
edits=()
for crate in "$@"; do
  edits+=("crates/$crate/must-fail/"*.edit)
done
printf '%s\0' "${edits[@]}" | xargs -0 -P "$(nproc)" -n 1 bash -c 'try "$1"' try

for edit in "${edits[@]}"; do
  log=$(log_of "$edit")
  if ! grep -q '^logic=not-proved' "$log"; then
    complain "$edit" "it was not tried, or not refused: $(tail -n 1 "$log")"
    continue
  fi
  if grep -E "^(\./)?(src|specs)/[^:]*:[0-9]+:[0-9]+: error" "$log" >/dev/null; then
    complain "$edit" 'its text cannot be read'
  fi
  if ! grep -q '^fails: ' "$edit"; then
    complain "$edit" 'it names neither a function nor a law that fails'
  fi
  if grep -q '^file: proofs/' "$edit"; then
    complain "$edit" 'it changes a proof, not the code or the rules'
  fi
  for name in $(sed -n 's/^fails: //p' "$edit"); do
    named=$((named + 1))
    if is_law "$edit" "$name"; then
      law_fails "$log" "$name" || complain "$edit" "the law $name does not fail"
    else
      fails "$log" "$name" || complain "$edit" "the function $name does not fail"
    fi
  done
done

[[ $bad -eq 0 && $named -gt 0 ]] && echo "edits: $named functions and laws fail where an edit makes them false"
[[ $bad -eq 0 && $named -gt 0 ]]
