#!/usr/bin/env bash
# The command `plan` around the prover and the Python package, with stand-ins for both, and what `plan` and `test` say where the machine
# lacks something: what is called and when, what is printed, how it ends, and that a library appears whole or not at all.
set -u
here=$(cd "$(dirname "$0")/../.." && pwd)
work=$(mktemp -d) || exit 1
trap 'rm -rf "$work"' EXIT
passed=0
failed=0

# verdict NAME: counts the test by the status of the command before
verdict() {
  if [[ $? -eq 0 ]]; then
    passed=$((passed + 1))
  else
    failed=$((failed + 1))
    echo "plan: failed: $1 (status $status)"
    sed 's/^/  /' "$work/out" "$work/err"
  fi
}

# The machine: nothing but these commands.
tools=$work/tools
mkdir "$tools"
for command in bash sh env dirname readlink find id sleep mkdir awk sort cat cp rm ln gcc cc ld as; do
  ln -s "$(command -v "$command")" "$tools/$command"
done
ln -s "$(python3 -c 'import sys; print(sys.executable)')" "$tools/python3"

# The prover: says what it is asked, leaves what rt leaves, and fails or waits where a file tells it to.
cat >"$tools/rt" <<'END'
#!/bin/sh
echo "$*" >>"$WORK/calls"
[ "${PWD##*/}" = rachdoum ] || exit 3
[ ! -e "$WORK/slow" ] || { sleep 600 & echo $! >"$WORK/sleeper"; wait; }
while [ -e "$WORK/hold" ]; do sleep 0.05; done
echo 'rt: chose --jobs 2 for small'
sleep 0.3
[ ! -e "$WORK/fail" ] || { echo 'rt: the library small did not build, so nothing above it was checked'; exit 1; }
echo 'logic=proved functions=0'
echo 'rt: chose --jobs 2 for rachdoum'
[ ! -e "$WORK/fail-own" ] || { echo 'logic=not-proved'; exit 1; }
[ ! -e "$WORK/broken" ] || { echo 'error: a broken kit'; exit 2; }
mkdir -p out && cp "$WORK/archive" out/librachdoum.a
END
chmod +x "$tools/rt"
export WORK=$work

# The package: prints its arguments and what the library answers, and ends as it is told.
repo=$work/repo
mkdir -p "$repo/examples" "$repo/python/rachdoum" "$repo/crates/small/src" "$repo/crates/small/must-fail" "$repo/crates/rachdoum/src"
cp "$here/plan" "$here/test" "$repo"
cp -R "$here/scripts" "$repo/scripts"
printf 'small:\nother: small\nrachdoum staticlib: small io\n' >"$repo/crates.txt"
echo '// A small crate. It has no function.' >"$repo/crates/small/src/lib.rt"
echo '// The entries.' >"$repo/crates/rachdoum/src/lib.rt"
: >"$repo/python/rachdoum/__init__.py"
cat >"$repo/python/rachdoum/__main__.py" <<'END'
import ctypes, os, sys
print(*sys.argv[1:], ctypes.CDLL(os.environ["RACHDOUM_LIBRARY"]).answer())
sys.exit(int(os.environ.get("ENDS", 0)))
END
echo 'int answer(void) { return 42; }' >"$work/answer.c"
gcc -c -o "$work/answer.o" "$work/answer.c" && ar rc "$work/archive" "$work/answer.o" || exit 1

# run COMMAND..: with these tools alone
run() {
  : >"$work/calls"
  PATH=$tools "$@" >"$work/out" 2>"$work/err"
  status=$?
}

# ended STATUS OUTPUT CALLS: how it ended, what it printed and how often it called the prover
ended() {
  [[ $status -eq $1 && $(cat "$work/out") == "$2" && $(wc -l <"$work/calls") -eq $3 ]]
}

# says TEXT: the one line on standard error
says() {
  [[ $(wc -l <"$work/err") -eq 1 ]] && grep -qF -- "$1" "$work/err"
}

# until_so COMMAND..: waits for it, for half a minute at most
until_so() {
  for _ in {1..600}; do
    ! "$@" || return 0
    sleep 0.05
  done
  return 1
}

cd "$repo" || exit 1
library=target/librachdoum.so

run ./plan
ended 0 'plan examples/huts.sheet 42' 1 && [[ $(cat "$work/calls") == lib ]] &&
  grep -q '^plan: .*once: 2 crates, about ' "$work/err" && grep -q '^plan:  1 of 2 small .* to go: A small crate$' "$work/err" &&
  grep -q '^plan:  2 of 2 rachdoum .* to go: The entries$' "$work/err" && grep -q '^logic=proved' target/plan.log &&
  cmp -s "$work/archive" target/staticlib/librachdoum.a
verdict 'the first call builds'
run ./plan
ended 0 'plan examples/huts.sheet 42' 0 && [[ ! -s $work/err ]]
verdict 'the second call starts at once'
run ./plan --json
ended 0 'plan examples/huts.sheet --json 42' 0
verdict 'options for the example'
run ./plan --help
ended 0 'plan --help 42' 0
verdict 'help'
run ./plan - --k 2
ended 0 'plan - --k 2 42' 0
verdict 'standard input'
run ./plan --tsv --formula=Hut=4/Pier=3
ended 0 'plan --tsv --formula=Hut=4/Pier=3 42' 0
verdict 'a formula'
for command in formula convert compare; do
  run ./plan $command 'a b'
  ended 0 "$command a b 42" 0
  verdict "the subcommand $command"
done
cd "$work" || exit 1
echo 'raise SystemExit("not this one")' >"$work/ctypes.py"
run repo/plan 'a b.csv' c.csv
ended 0 'plan a b.csv c.csv 42' 0
verdict 'files of another folder'
run repo/plan
ended 0 'plan repo/examples/huts.sheet 42' 0
verdict 'the example from another folder'
cd "$repo" || exit 1
ENDS=1 run ./plan
ended 1 'plan examples/huts.sheet 42' 0
verdict 'the exit status of the command'

sleep 0.05
touch crates/small/must-fail/new.edit
run ./plan
ended 0 'plan examples/huts.sheet 42' 0
verdict 'a new edit asks for no build'
touch crates/small/src/lib.rt
run ./plan
ended 0 'plan examples/huts.sheet 42' 1 && grep -q '^plan: the sources have changed' "$work/err"
verdict 'a changed source is proved again'
sleep 0.05
touch crates/rachdoum/out/librachdoum.a crates/small
run ./plan
ended 0 'plan examples/huts.sheet 42' 0
verdict 'what rt keeps asks for no build'
touch -d '+1 hour' crates/small/src/lib.rt
run ./plan
run ./plan
ended 0 'plan examples/huts.sheet 42' 0
verdict 'a source from the future is built once'

touch "$work/fail" crates.txt
rm "$library"
run ./plan
ended 2 '' 1 && [[ $(tail -n 1 "$work/err") == 'plan: the build failed: not proved: small (log: target/plan.log)' && ! -e $library ]]
verdict 'a proof that fails'
rm "$work/fail"
touch "$work/fail-own"
run ./plan
ended 2 '' 1 && [[ $(tail -n 1 "$work/err") == 'plan: the build failed: not proved: rachdoum (log: target/plan.log)' && ! -e $library ]]
verdict 'a proof of the library itself that fails'
rm "$work/fail-own"
touch "$work/broken"
run ./plan
ended 2 '' 1 && [[ $(tail -n 1 "$work/err") == 'plan: the build failed: rt lib (log: target/plan.log)' && ! -e $library ]]
verdict 'an archive that fails'
rm "$work/broken"
cp "$work/archive" "$work/good"
echo 'no archive' >"$work/archive"
run ./plan
ended 2 '' 1 && [[ $(tail -n 1 "$work/err") == 'plan: the build failed: cc cannot link the library (log: target/plan.log)' ]] &&
  [[ -z $(find target -name '*.so') ]]
verdict 'a library that cannot be linked'
cp "$work/good" "$work/archive"

# interrupt SIGNAL: while the prover is at work
interrupt() {
  : >"$work/calls"
  rm -f "$work/sleeper"
  # An interactive shell's child: the signal is not ignored.
  PATH=$tools python3 -c 'import os, signal, sys; signal.signal(signal.SIGINT, signal.SIG_DFL); os.execv(sys.argv[1], sys.argv[1:])' \
    ./plan >"$work/out" 2>"$work/err" &
  local plan=$!
  until_so test -s "$work/sleeper"
  # (it may still be about to wait for the prover)
  sleep 0.5
  kill "-$1" "$plan"
  wait "$plan"
  status=$?
}
# gone PROCESS: it has ended
gone() {
  local state
  state=$(sed 's/.*) \(.\).*/\1/' "/proc/$1/stat" 2>/dev/null)
  [[ -z $state || $state == Z ]]
}

touch "$work/slow"
for signal in INT TERM; do
  interrupt $signal
  [[ $status -eq $((128 + $(kill -l $signal))) && $(tail -n 1 "$work/err") == 'plan: stopped; '* && -z $(find target -name '*.so') ]] &&
    until_so gone "$(cat "$work/sleeper")"
  verdict "interrupted by $signal"
done
rm "$work/slow"

: >"$work/calls"
touch "$work/hold"
PATH=$tools ./plan >"$work/other" 2>/dev/null &
first=$!
until_so test -s "$work/calls"
PATH=$tools ./plan >"$work/out" 2>"$work/err" &
second=$!
until_so test -s "$work/err"
rm "$work/hold"
wait "$first"
wait "$second"
status=$?
ended 0 'plan examples/huts.sheet 42' 1 && cmp -s "$work/out" "$work/other" && says 'plan: another call builds the library: waiting for it'
verdict 'two calls at once build once'

# What is missing. The library is there, so only a changed source asks for the prover.
mv "$tools/rt" "$work/rt"
run ./plan
ended 0 'plan examples/huts.sheet 42' 0 && [[ ! -s $work/err ]]
verdict 'the kit is missing, and not needed'
rm "$library"
run ./plan
ended 2 '' 0 && says 'plan: rt is missing. It is part of the Rattle kit, not of Debian: run export PATH='
verdict 'the kit is missing'
run ./test
ended 2 '' 0 && says 'test: rt is missing. '
verdict 'the kit is missing for the tests'
mv "$work/rt" "$tools/rt"

# stand_in COMMAND LINES: a program of the machine
stand_in() {
  rm -f "$tools/$1"
  printf '#!/bin/sh\n%s\n' "$2" >"$tools/$1"
  chmod +x "$tools/$1"
}

stand_in id 'echo 1000'
rm "$tools/cc"
run ./plan
ended 2 '' 0 && says 'plan: missing: cc. Run as root: apt-get install gcc'
verdict 'a compiler is missing'
run ./test
ended 2 '' 0 && says 'test: missing: cargo rustc cc g++. Run as root: apt-get install cargo g++ gcc'
verdict 'compilers are missing for the tests'
stand_in apt-cache "[ ! -e $work/unlisted ]"
stand_in apt-get "echo \"\$*\" >>$work/installed
[ \$1 != update ] || rm -f $work/unlisted $work/old
[ ! -e $work/unlisted -a ! -e $work/old ] || { echo 'E: no such package'; exit 100; }
[ \$1 != install ] || ln -s $(command -v gcc) $tools/cc"
run ./test
ended 2 '' 0 && says 'test: missing: cargo rustc cc g++. Run as root: apt-get install cargo-web g++ gcc' && [[ ! -e $work/installed ]]
verdict 'only root installs'
stand_in id 'echo 0'

# installs LISTS CALLS: root has the compiler installed, with lists of packages that are unlisted, old or new
installs() {
  rm -f "$library" "$tools/cc" "$work/installed"
  touch "$work/$1"
  run ./plan
  ended 0 'plan examples/huts.sheet 42' 1 && [[ $(head -n 1 "$work/err") == 'plan: installing gcc (log: '*'/target/needs.log)' ]] &&
    [[ $(tr '\n' ';' <"$work/installed") == "$2" ]]
  verdict "root installs what is missing, lists $1"
}
installs unlisted 'update;install -y gcc;'
installs old 'install -y gcc;update;install -y gcc;'
installs new 'install -y gcc;'
stand_in apt-get 'exit 100'
run ./test
ended 2 '' 0 && [[ $(tail -n 1 "$work/err") == 'test: still missing: cargo rustc g++. Run: apt-get install cargo-web g++ (log: ./target/needs.log)' ]]
verdict 'an installation that fails'
stand_in cargo 'echo cargo 1.77.2'
run ./test
ended 2 '' 0 && says 'test: cargo is older than 1.78: run rustup update or, on Debian, apt-get install cargo-web'
verdict 'a cargo that is too old'
stand_in cargo 'echo "cargo 1.78.0 (54d8815d0 2024-03-26)"'
run ./test
ended 2 '' 0 && [[ $(tail -n 1 "$work/err") == 'test: still missing: rustc g++. '* ]]
verdict 'a cargo that is new enough'

cd "$here" || exit 1
echo "plan: $passed passed, $failed failed"
[[ $failed -eq 0 ]]
