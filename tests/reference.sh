#!/usr/bin/env bash
# The second implementation's own tests: the paper's cases, the words of each call, invariants on generated lists of calls.
# Needs nothing that is proved.
set -euo pipefail
cd "$(dirname "$0")/.."
# every test that is written runs, but for those that need the verified machine
written=$(find reference/src reference/tests -name '*.rs' ! -name host.rs -exec cat {} + | grep -c '^ *#\[test\]')
ignored=$(find reference/src reference/tests -name '*.rs' ! -name host.rs -exec cat {} + | grep -c '^ *#\[ignore')
[ "$written" -gt "$ignored" ] || { echo "there are no tests"; exit 1; }
tests/cargo-test $((written - ignored)) --lib --bins --tests
