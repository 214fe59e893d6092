#!/usr/bin/env bash
# The verified libraries beside the second implementation, on the same calls: answers and tables must be the same. tests/mirror.sh tries the
# comparison itself.
#
#   tests/differential.sh                  fixed seeds
#   tests/differential.sh SECONDS          the same, and more seeds until the time is over
#   tests/differential.sh SECONDS LISTS    the same, with so many lists of long runs
set -e
cd "$(dirname "$0")/.."
tests/build host desk
export TARIFF_LIB=$PWD/target/staticlib TARIFF_LINK=static=host,static=desk TARIFF_SEEDS=8000 TARIFF_LONG=${2:-3000} TARIFF_SECONDS=${1:-0}
tests/cargo-test 6 --features host --test host -- --nocapture
