#!/usr/bin/env bash
# Each example script on the proved machine, with the answers that it should print.
set -eu
cd "$(dirname "$0")/.."
tests/build boxscript
wrong=0
played=0
for script in examples/*.box; do
    [ -e "$script" ] || break
    played=$((played + 1))
    if ! target/bin/boxscript <"$script" | cmp - "${script%.box}.out"; then
        echo "examples: $script prints something else"
        wrong=1
    fi
done
[ "$played" -gt 0 ] || { echo "examples: there is no script"; exit 1; }
exit "$wrong"
