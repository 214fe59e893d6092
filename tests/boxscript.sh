#!/usr/bin/env bash
# boxscript on hostile input, whole and in small pieces: it prints what the second implementation's program prints.
set -eu
export LC_ALL=C
cd "$(dirname "$0")/.."
tests/build boxscript
(cd reference && cargo build --offline --release --quiet --bin boxscript_ref)
theirs=${CARGO_TARGET_DIR:-reference/target}/release/boxscript_ref
work=$(mktemp -d)
trap 'rm -rf "$work"' EXIT
cases=$work/cases
mkdir "$cases"

times() { # N BYTE: the byte, N times
    head -c "$1" /dev/zero | tr '\0' "$2"
}

: >"$cases/empty"
printf '\n' >"$cases/an-empty-line"
printf 'N\n\nN\n' >"$cases/an-empty-line-between"
printf 'R 1 2 0\nN' >"$cases/no-last-line-end"
printf 'N\r\nN\r\n' >"$cases/carriage-returns"
printf 'N\n\0\nN\n' >"$cases/a-zero-byte"
printf 'N\nN\0\nN\n' >"$cases/a-zero-byte-in-a-line"
printf 'N \nN\n' >"$cases/a-space-too-many"
printf 'R 1 2 65536\n' >"$cases/a-number-too-large"
printf 'S 0 0 2 1 -2147483648\nS 0 0 2 1 2147483648\n' >"$cases/an-int-too-large"
{ printf 'D 1 '; times 65532 A; printf '\nN\n'; } >"$cases/65536-bytes"
{ printf 'D 1 '; times 65532 A; } >"$cases/65536-bytes-and-no-end"
{ printf 'N\nD 01 '; times 65532 A; printf '\nN\n'; } >"$cases/65537-bytes"
{ printf 'N\nD 01 '; times 65532 A; } >"$cases/65537-bytes-and-no-end"
{ printf 'N\n'; times 1000000 N; printf '\nN\n'; } >"$cases/a-line-of-1000000-bytes"
times 1000000 '\n' >"$cases/1000000-empty-lines"
awk 'BEGIN { srand(1); for (i = 0; i < 1000000; i++) printf "%c", int(rand() * 256) }' >"$cases/1000000-bytes"

# lines of calls, some of which are accepted; the last can't be read
awk 'BEGIN {
    srand(2)
    for (i = 0; i < 30000; i++) {
        k = int(rand() * 10)
        if (k == 0) printf "R %d %d %d\n", rand() * 18, 2 + rand() * 3, rand() * 3
        else if (k == 1) printf "D %d 010011%04X0002000100140001000100031501AC\n", rand() * 17, 8 + rand() * 6
        else if (k == 2) printf "S %d %d %d 20 %d\n", rand() * 3, rand() * 4, 8 + rand() * 6, rand() * 4000000000 - 2000000000
        else if (k == 3) printf "X %d\n", rand() * 3
        else print "N"
    }
    print "N N"
    print "N"
}' >"$cases/30000-lines"

wrong=0
for input in "$cases"/*; do
    "$theirs" <"$input" >"$work/expected"
    target/bin/boxscript <"$input" >"$work/whole"
    # a few bytes at a write, as a slow sender does
    dd if="$input" bs=1013 status=none | target/bin/boxscript >"$work/pieces"
    if ! cmp "$work/expected" "$work/whole" || ! cmp "$work/expected" "$work/pieces"; then
        echo "boxscript: $(basename "$input") prints something else"
        wrong=1
    fi
done
# 300 generated scripts
TARIFF_BOXSCRIPT=$PWD/target/bin/boxscript tests/cargo-test 1 --test boxscript -- --ignored
exit "$wrong"
