#!/usr/bin/env bash
# ./box talk by a scripted terminal: statements, errors that don't end it, store, why, undo, history, draw, save; the same from a file of any
# bytes. ./box watch: a file that changes, goes for a moment, and has a mistake.
set -euo pipefail
cd "$(dirname "$0")/.."
if [ -z "${BOX:-}" ]; then
    tests/build host desk
    ./box examples/first.lesson >/dev/null
fi
work=$(mktemp -d)
trap 'rm -rf "$work"' EXIT
# shellcheck disable=SC2086
PYTHONDONTWRITEBYTECODE=1 python3 tests/talk.py "$work" ${BOX:-./box}
