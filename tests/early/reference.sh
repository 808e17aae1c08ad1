#!/usr/bin/env bash
# The second implementation passes its own tests: the small trials, the worked examples, and its two versions against each other.
cd "$(dirname "$0")/../../reference" && cargo test --release --offline --quiet
