#!/usr/bin/env bash
# The publishers' desk as a C program calls it: once as it is, and once with gcc's checks of addresses and of undefined behaviour.
set -e
cd "$(dirname "$0")/.."
tests/build desk
build() { # PROGRAM WORDS..
    gcc -std=c11 -O2 -Wall -Wextra -Werror -Iinclude "${@:2}" tests/desk.c target/staticlib/libdesk.a -o "$1"
}
build target/desk
target/desk
build target/desk.checked -g -fsanitize=address,undefined -fno-sanitize-recover=all
target/desk.checked
