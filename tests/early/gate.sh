#!/usr/bin/env bash
# The gate turns red where it must: a stand-in for `rt` shows how `test` takes its verdict, and the real one what it refuses.
set -u
here=$(cd "$(dirname "$0")/../.." && pwd)
work=$(mktemp -d)
trap 'rm -rf "$work"' EXIT
bad=0

# verdict NAME WANTED-STATUS WANTED-LAST-LINE: runs `test` in $work/gate with the stand-in first on the path
verdict() {
  out=$(cd "$work/gate" && PATH="$work/bin:$PATH" ./test 2>&1)
  status=$?
  last=$(tail -n 1 <<<"$out")
  if [[ $status -ne $2 || $last != "$3" ]]; then
    echo "gate: $1: status $status, last line '$last'"
    bad=1
  fi
}

# stand_in STATUS LINES..: what `rt ci` prints and how it ends
stand_in() {
  printf '#!/bin/sh\nprintf "%%s\\n" %s\nexit %s\n' "$2" "$1" >"$work/bin/rt"
  chmod +x "$work/bin/rt"
}

mkdir -p "$work/bin" "$work/gate/tests/early"
cp "$here/test" "$work/gate/test"
cp -R "$here/scripts" "$work/gate/scripts"

stand_in 0 '"rt: ok" "7 passed, 0 failed"'
verdict 'all passed' 0 '7 passed, 0 failed'
stand_in 1 '"rt: FAILED: rules" "6 passed, 1 failed"'
verdict 'rt ci fails' 1 '6 passed, 1 failed'
stand_in 1 '"7 passed, 0 failed"'
verdict 'rt ci ends with a status of its own' 1 '7 passed, 1 failed'
stand_in 0 '"7 passed, 0 failed" "and more"'
verdict 'the last line has another form' 1 '0 passed, 1 failed'
edits='rt: ok; handles allowed: none; must-fail edits: 3 refused'
stand_in 0 "'$edits; every proof was done in this run' '7 passed, 0 failed'"
verdict 'no edit is bad' 0 '7 passed, 0 failed'
stand_in 0 "'$edits, 1 bad; every proof was done in this run' '7 passed, 0 failed'"
verdict 'an edit is bad' 1 '7 passed, 1 failed'
stand_in 0 '"7 passed, 0 failed"'
echo 'exit 1' >"$work/gate/tests/red.sh"
verdict 'a test beside it fails' 1 '7 passed, 1 failed'
echo 'exit 0' >"$work/gate/tests/red.sh"
verdict 'a test beside it passes' 0 '8 passed, 0 failed'
echo 'exit 1' >"$work/gate/tests/early/red.sh"
verdict 'an early test fails' 1 '8 passed, 1 failed'
echo 'exit 0' >"$work/gate/tests/early/red.sh"
verdict 'an early test passes' 0 '9 passed, 0 failed'
# an older program gives way to what rt ci built
mkdir -p "$work/gate/crates/made/src" "$work/gate/crates/made/out" "$work/gate/target/bin"
touch "$work/gate/crates/made/src/main.rt"
echo new >"$work/gate/crates/made/out/made"
echo old >"$work/gate/target/bin/made"
echo '[[ -x target/bin/made && $(cat target/bin/made) == new ]]' >"$work/gate/tests/red.sh"
verdict 'the programs that rt ci built are tested' 0 '9 passed, 0 failed'
rm "$work/gate/crates/made/out/made"
echo '[[ ! -e target/bin/made ]]' >"$work/gate/tests/red.sh"
verdict 'a program that rt ci did not build is not there' 0 '9 passed, 0 failed'

# refused NAME WORDS: the real gate must refuse the repository in $work/repo, for a reason that it gives in these words
refused() {
  if (cd "$work/repo" && rt ci >"$work/log" 2>&1); then
    echo "gate: $1 was taken"
    bad=1
  elif ! grep -qF -- "$2" "$work/log"; then
    echo "gate: $1 was refused for something else"
    cat "$work/log"
    bad=1
  fi
}

# a small repository with one law
fresh() {
  rm -rf "$work/repo"
  mkdir -p "$work/repo/crates/small/src" "$work/repo/crates/small/specs"
  echo 'small:' >"$work/repo/crates.txt"
  echo '// No function.' >"$work/repo/crates/small/src/lib.rt"
  echo 'pub mod Law' >"$work/repo/crates/small/specs/Lib.antt"
  law 'refl'
}

# law PROOF: the one law, with this proof
law() {
  printf 'use Rattle.std.specs.Prelude.{◌≡◌, ◌+◌, refl}\n%s\npub law : 1 + 1 ≡ 2\nlaw = %s\n' "${2:+$'\n'$2$'\n'}" "$1" >"$work/repo/crates/small/specs/Law.antt"
}

fresh
if ! (cd "$work/repo" && rt ci >"$work/log" 2>&1); then
  echo 'gate: the small repository is not proved'
  cat "$work/log"
  bad=1
fi
fresh
mkdir -p "$work/repo/crates/unlisted/src"
echo '// No function.' >"$work/repo/crates/unlisted/src/lib.rt"
refused 'a crate folder that crates.txt does not list' 'no check reads'
fresh
law '?'
refused 'a hole in a proof' '`law` is not admitted: has-holes'
fresh
law 'chosen' 'axiom chosen : 1 + 1 ≡ 2'
refused 'an axiom in a proof' '`chosen` is not admitted: axiom'
fresh
sed -i 's/1 + 1 ≡ 2$/1 + 1 ≡ 3/' "$work/repo/crates/small/specs/Law.antt"
refused 'a changed outcome' 'expected type `1 + 1 ≡ 3`'

# The real one takes an edit that cannot be applied, and `test` does not.
fresh
mkdir "$work/repo/crates/small/must-fail"
printf 'file: specs/Law.antt\nold: 1 + 1 ≡ 4\nnew: 1 + 1 ≡ 3\n' >"$work/repo/crates/small/must-fail/odd.edit"
cp -R "$here/test" "$here/scripts" "$work/repo"
out=$(cd "$work/repo" && ./test 2>&1)
status=$?
if [[ $status -ne 1 || $(tail -n 1 <<<"$out") != '1 passed, 1 failed' ]]; then
  echo "gate: an edit that cannot be applied: status $status"
  echo "$out"
  bad=1
fi

[ $bad -eq 0 ] && echo 'gate: red where it must be'
exit $bad
