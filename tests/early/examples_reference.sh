#!/usr/bin/env bash
# The second implementation prints the expected table of every example, converts those that are numbered within parents and makes the
# sheets of formulas, in its literal and in its fast version.
set -u
cd "$(dirname "$0")/../.." || exit 1
cargo build --release --offline --quiet --manifest-path reference/Cargo.toml || exit 1
program=${CARGO_TARGET_DIR:-reference/target}/release/reference
bash examples/compare.sh "$program" && bash examples/compare.sh "$program" --fast &&
  bash examples/convert.sh "$program" convert && bash examples/convert.sh "$program" --fast convert &&
  bash examples/formula.sh "$program" formula && bash examples/formula.sh "$program" --fast formula
