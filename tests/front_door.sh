#!/usr/bin/env bash
# The Python package and the command: their own tests, the command on all examples, on damaged files, on random designs beside the
# second implementation, on any file whatever, and the package installed by pip without a network.
# RACHDOUM_LIB may name the folder of an archive (a path from the root); RACHDOUM_DESIGNS, RACHDOUM_FILES and RACHDOUM_SEED ask for
# more random designs and files, or for others.
set -u
cd "$(dirname "$0")/.." || exit 1
work=$(mktemp -d) || exit 1
trap 'rm -rf "$work"' EXIT
bad=0

# step NAME COMMAND..: runs a command; what it printed is shown only if it failed
step() {
  if "${@:2}" >"$work/log" 2>&1; then
    echo "front door: $1"
  else
    echo "front door: failed: $1"
    tail -n 60 "$work/log"
    bad=1
  fi
}

# installed: the package goes into a folder by pip and its command runs there, with nothing of the repository
installed() {
  python3 -m pip install --quiet --no-index --no-build-isolation --no-deps --target "$work/site" ./python || return 1
  cp examples/huts.sheet examples/huts.table examples/hut-pier.sheet "$work" || return 1
  (
    cd "$work" && unset RACHDOUM_LIBRARY && export PYTHONPATH=$work/site &&
      site/bin/rachdoum plan --tsv huts.sheet | cmp - huts.table &&
      site/bin/rachdoum formula 'Hut=4/Pier=3' | cmp - hut-pier.sheet &&
      [[ $(site/bin/rachdoum compare --tsv huts.sheet Filter Hut) == $'compared\tFilter\tHut\tcoarser' ]]
  )
}

# old ARCHIVE: there is none, or a source is newer
old() {
  [[ ! -e $1 || -n $(find crates.txt crates/*/{src,specs,proofs} -newer "$1" -print -quit 2>/dev/null) ]]
}

archive=${RACHDOUM_LIB:-target/staticlib}/librachdoum.a
if [[ -z ${RACHDOUM_LIB:-} ]] && old "$archive"; then
  step 'archive' scripts/make rachdoum
fi
step 'shared library built' \
  cc -shared -o "$work/librachdoum.so" -Wl,--whole-archive "$archive" -Wl,--no-whole-archive
step 'second implementation built' cargo build --release --offline --quiet --manifest-path reference/Cargo.toml
export RACHDOUM_LIBRARY=$work/librachdoum.so
export RACHDOUM_REFERENCE=$PWD/${CARGO_TARGET_DIR:-reference/target}/release/reference
[[ ${CARGO_TARGET_DIR:-} == /* ]] && RACHDOUM_REFERENCE=$CARGO_TARGET_DIR/release/reference
export PYTHONPATH=$PWD/python

for tests in python/tests/test_*.py; do
  step "$(basename "$tests" .py)" python3 -W error::ResourceWarning -m unittest discover -s python/tests -p "$(basename "$tests")"
  grep -E '^Ran [0-9]+ tests?' "$work/log" | sed 's/^/  /'
  grep -q '^Ran 0 tests' "$work/log" && bad=1
done
if python3 -m pip --version >/dev/null 2>&1; then
  step 'installed by pip without a network' installed
else
  echo 'front door: there is no pip; the installation is not tried'
fi
exit $bad
