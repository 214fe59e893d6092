#!/usr/bin/env bash
# The proved driver on generated lists of calls, by the program drivelist: it prints what the second implementation prints.
set -eu
cd "$(dirname "$0")/.."
tests/build drivelist
TARIFF_DRIVELIST=$PWD/target/bin/drivelist tests/cargo-test 1 --test drivelist -- --ignored
