#!/usr/bin/env bash
# The C header, the example and the tests in C, as strict compilers and sanitizers see them: no warning on fresh memory, every word and kind
# has its name, the example says any refusal without reading past a table, and nothing that address,undefined find.
set -euo pipefail
cd "$(dirname "$0")/.."
tests/build host desk
work=$(mktemp -d)
trap 'rm -rf "$work"' EXIT
wrong=0
fail() { echo "c: $*"; wrong=1; } # WORDS

libraries=(target/staticlib/libhost.a target/staticlib/libdesk.a)
strict=(-Wall -Wextra -Wpedantic -Werror -Iinclude)
# shellcheck disable=SC2054
clean=(-std=c11 -g -O1 "${strict[@]}" -fsanitize=address,undefined -fno-sanitize-recover=all)

# a store on the stack and one from malloc, booted as they are
cat >"$work/fresh.c" <<'END'
#include <stdlib.h>
#include "tariff.h"
#include "desk.h"
int main(void)
{
    struct tariff_store here, *there = (struct tariff_store *)malloc(sizeof *there);
    uint32_t answer[TARIFF_ANSWER];
    const uint8_t none = 0;
    if (there == NULL)
        return 1;
    int wrong = tariff_boot(TARIFF_LEND(&here), answer, TARIFF_ANSWER) != 0;
    wrong |= tariff_boot(TARIFF_LEND(there), answer, TARIFF_ANSWER) != 0;
    wrong |= tariff_check(&none, 0) != TARIFF_DESK_FILE;
    free(there);
    return wrong;
}
END
for level in 0 2 3; do
    gcc -std=c11 "-O$level" "${strict[@]}" "$work/fresh.c" "${libraries[@]}" -o "$work/fresh" || fail "warnings on fresh memory, -O$level"
    "$work/fresh" || fail "a boot of fresh memory"
done
if command -v g++ >/dev/null; then g++ -x c++ -O2 "${strict[@]}" -c "$work/fresh.c" -o "$work/fresh.o" || fail "the headers in C++"; fi

# every word and kind of the header has its name, the words those of the second implementation
words=$(sed -n '/^enum tariff_word {/,/^}/s/.*= \([0-9]*\).*/\1/p' include/tariff.h)
sed -n '/pub const NAMES/,/];/p' reference/src/answer.rs | grep -o '"[a-z ]*"' | tr -d '"' >"$work/names"
[ "$(echo "$words" | wc -l)" -eq "$(wc -l <"$work/names")" ] || fail "tariff.h has other words than the second implementation"
cat >"$work/names.c" <<'END'
#include <stdio.h>
#include "tariff.h"
int main(void)
{
    for (uint32_t n = 0; n < 70000; n++)
        printf("%u %s / %s\n", n, tariff_word_name(n), tariff_kind_name(n));
    return 0;
}
END
gcc "${clean[@]}" "$work/names.c" -o "$work/named" && "$work/named" >"$work/named.out" || fail "the names"
place=0
while read -r name; do
    place=$((place + 1))
    grep -q "^$place $name / " "$work/named.out" || fail "word $place isn't named $name"
done <"$work/names"
grep -q "^$((place + 1)) no such word / " "$work/named.out" || fail "a word too many has a name"
kinds=$(sed -n '/^enum tariff_kind {/,/^}/p' include/tariff.h | grep -c ' = [0-9]')
[ "$(grep -vc ' / no such kind$' "$work/named.out")" -eq "$kinds" ] || fail "not each kind has a name"

# the example, and the example with every refusal at every call
gcc "${clean[@]}" examples/quote.c "${libraries[@]}" -o "$work/quote" && "$work/quote" | diff examples/quote.out - || fail "examples/quote.c"
gcc "${clean[@]}" examples/quote.c tests/refusing.c -o "$work/refused" || fail "examples/quote.c with refusals"
for after in 0 1 2 3 4; do
    for number in 1 2 5 9 14 15 16 17 18 19 20 21 255; do
        said=$(REFUSED_AFTER=$after REFUSED_WITH=$number "$work/refused" 2>&1) && fail "word $number at call $after is taken for success"
        case $said in *Sanitizer* | *"runtime error"*) fail "word $number at call $after: $said" ;; esac
        case $said in *"$(sed -n "${number}p" "$work/names")"*) ;; *) fail "word $number at call $after isn't named: $said" ;; esac
    done
done

gcc "${clean[@]}" tests/desk.c target/staticlib/libdesk.a -o "$work/desk" && "$work/desk" || fail "tests/desk.c"
gcc "${clean[@]}" tests/host.c "${libraries[@]}" -Wl,-z,now -o "$work/host" || fail "tests/host.c"
"$work/host" 2>&1 | grep -v 'ASan doesn.t fully support' || fail "tests/host.c"
exit "$wrong"
