#!/usr/bin/env bash
# The machine as C programs call it: the example examples/quote.c, tests/host.c and tests/changeover.c. Each once as it is and once with gcc's checks of addresses and
# of undefined behaviour.
set -e
cd "$(dirname "$0")/.."
tests/build host desk
build() { # SOURCE PROGRAM WORDS..
    gcc -std=c11 -O2 -Wall -Wextra -Werror -Iinclude "${@:3}" "$1" target/staticlib/libhost.a target/staticlib/libdesk.a -Wl,-z,now -o "$2"
}
checked=(-g -fsanitize=address,undefined -fno-sanitize-recover=all)
build examples/quote.c target/quote
build examples/quote.c target/quote.checked "${checked[@]}"
for quote in target/quote target/quote.checked; do
    "$quote" >target/quote.out || { cat target/quote.out; exit 1; }
    diff examples/quote.out target/quote.out
done
build tests/host.c target/host
target/host
build tests/host.c target/host.checked "${checked[@]}"
target/host.checked
build tests/changeover.c target/changeover
target/changeover
build tests/changeover.c target/changeover.checked "${checked[@]}"
target/changeover.checked
