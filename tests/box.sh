#!/usr/bin/env bash
# ./box as a person uses it: interrupted while it proves, on a disk that can't be written, moved, through a link, without cargo, rt or a
# compiler; scripts and texts of every kind; exit statuses; many files at the desk.
set -uo pipefail
cd "$(dirname "$0")/.." || exit 2
tests/build host desk boxscript || exit 1
work=$(mktemp -d)
trap 'rm -rf "$work"' EXIT
wrong=0
fail() { # WORDS
    echo "box: $*" | head -n 20
    wrong=1
}

# ---- interrupts, with a stand-in for rt
tree=$work/tree
mkdir -p "$tree/bin"
tests/copied "$tree"
# a chain of few crates, so that it takes seconds
printf 'definition:\ncells: definition\nlaws: definition\ndesk staticlib: definition cells laws\n' >"$tree/crates.txt"
cp tests/stand-in-rt "$tree/bin/rt"
printf '#!/bin/sh\nexit 1\n' >"$tree/bin/cargo"
cp "$tree/bin/cargo" "$tree/bin/rustc"
chmod +x "$tree/bin/"*
export RT_PIDS=$work/pids

# a test that runs in the background may have been started with signals ignored
heeding=(env)
if env --default-signal=INT,HUP,TERM true 2>/dev/null; then heeding=(env --default-signal=INT,HUP,TERM); fi

alive() { # are there provers that were started?
    local pid
    while read -r pid; do if kill -0 "$pid" 2>/dev/null; then return 0; fi; done <"$RT_PIDS"
    return 1
}

begun() { # SECONDS OF A PROVER: ./box check in a group of its own, as in a terminal, until it proves
    : >"$RT_PIDS"
    set -m
    RT_SECONDS=$1 PATH=$tree/bin:$PATH "${heeding[@]}" "$tree/box" check examples/first.box >"$work/said" 2>&1 &
    box=$!
    set +m
    for _ in $(seq 600); do
        [ ! -s "$RT_PIDS" ] || return 0
        sleep 0.1
    done
    fail "./box didn't begin to prove: $(cat "$work/said")"
}

gone() { # WORDS: what was started ends
    for _ in $(seq 200); do
        if ! alive && ! kill -0 "$box" 2>/dev/null; then
            { wait "$box"; } 2>/dev/null
            return 0
        fi
        sleep 0.1
    done
    fail "provers run on after $*"
}

for signal in INT TERM HUP KILL; do
    begun 30
    case $signal in
    # as a terminal does it: to all of the group
    INT | HUP) kill "-$signal" -- "-$box" ;;
    *) kill "-$signal" "$box" ;;
    esac
    gone "a signal $signal"
done
# interrupted while the archive is written: half of it is there, and the next run doesn't take it
RT_SECONDS=0 PATH=$tree/bin:$PATH "$tree/tests/build" desk >"$work/said" 2>&1 || fail "the next run doesn't go on: $(cat "$work/said")"
[ "$(cat "$tree/target/staticlib/libdesk.a")" = whole ] || fail "the archive isn't whole"
rm "$tree/target/built/desk"
begun 30
[ "$(cat "$tree/crates/desk/out/libdesk.a")" = half ] || fail "the archive isn't being written"
kill -TERM "$box"
gone "a signal TERM in the last step"
"$tree/tests/build" --ask desk && fail "half an archive is trusted"
# a crate that was proved isn't proved again, one that is damaged is
: >"$RT_PIDS"
rm -f "$tree/crates/cells/out/rlib/cells.rlib/format" "$tree/crates/laws/out/rlib/stamp"
RT_SECONDS=0 PATH=$tree/bin:$PATH "$tree/tests/build" desk >"$work/said" 2>&1 || fail "the next run doesn't go on: $(cat "$work/said")"
[ "$(cat "$tree/target/staticlib/libdesk.a")" = whole ] && "$tree/tests/build" --ask desk || fail "the archive isn't whole"
[ "$(wc -l <"$RT_PIDS")" -eq 3 ] || fail "proved again: $(wc -l <"$RT_PIDS"), and cells, laws and the archive were to be"

# progress: a line as each crate ends, with no awk at all
rm -rf "$tree/target" "$tree/crates/"*/out
mkdir "$work/bin"
for command in bash sh sed find sort xargs sha256sum cut cat dirname basename readlink grep rm mkdir mv sleep wc seq flock ps tr cp head; do
    there=$(command -v "$command") && ln -s "$there" "$work/bin/$command"
done
RT_SECONDS=2 PATH=$tree/bin:$work/bin "$tree/tests/build" --say desk 2>"$work/said" &
builder=$!
for _ in $(seq 600); do
    if grep -q '^proved definition: 1 of 4 crates' "$work/said"; then break; fi
    sleep 0.1
done
grep -q '^proved definition: 1 of 4 crates' "$work/said" || fail "the first crate isn't told: $(cat "$work/said")"
[ ! -e "$tree/crates/laws/out/rlib/stamp" ] || fail "the first crate isn't told when it ends"
wait "$builder" || fail "the build fails: $(cat "$work/said")"
[ "$(grep -c '^proved ' "$work/said")" -eq 4 ] || fail "not every crate is told: $(cat "$work/said")"
sed -n 's/.*about \([0-9]*\) minute.*/\1/p' "$work/said" >"$work/minutes"
sort -rn "$work/minutes" | cmp -s - "$work/minutes" || fail "the minutes left rise: $(cat "$work/said")"

# ---- what is missing is said at once
rm -rf "$tree/target"
began=$SECONDS status=0
PATH=$work/bin "$tree/box" check examples/first.box >"$work/said" 2>&1 || status=$?
[ "$status" -eq 2 ] && [ $((SECONDS - began)) -lt 5 ] || fail "what is missing takes $((SECONDS - began)) seconds and status $status"
for command in rt cargo cc; do grep -q "^  $command" "$work/said" || fail "$command isn't said to be missing: $(cat "$work/said")"; done

# ---- a built tree: moved, on a disk that can't be written, through a link, with neither cargo nor rt nor a compiler
./box examples/first.lesson >/dev/null || fail "examples/first.lesson"
moved="$work/moved here"
tests/copied --built "$moved"
mkdir "$work/links" && ln -s "$moved/box" "$work/links/second" && ln -s second "$work/links/box"
chmod -R a-w "$moved"
chmod 711 "$work" && mkdir "$work/out" && chmod 777 "$work/out"
user=()
# root may write anywhere, so it tries as nobody
nobody=(setpriv --reuid=65534 --regid=65534 --clear-groups)
if [ "$(id -u)" = 0 ] && "${nobody[@]}" true 2>/dev/null; then user=("${nobody[@]}"); fi
ln -s "$(command -v env)" "$work/bin/env"
for words in examples/p5-a-tie.lesson examples/first.box "--draw examples/p6-a-chain.lesson $work/out/a.svg" "list examples/first.box" \
    "check examples/first.box" "asm examples/first.lesson $work/out/classes" "why examples/why-a-load-clashed.lesson" "how examples/how-could-this-load.lesson"; do
    # shellcheck disable=SC2086
    (unset CARGO_TARGET_DIR && cd examples/.. && ${user[@]+"${user[@]}"} env PATH="$work/bin" "$work/links/box" $words) >"$work/said" 2>&1 ||
        fail "in a moved tree that can't be written, box $words: $(cat "$work/said")"
done
chmod -R u+w "$moved"
written=$(find "$moved" -newer "$work/links/box" -type f)
[ -z "$written" ] || fail "something is written: $written"

# ---- exit statuses and texts
ends() { # STATUS WORDS..
    local status=0
    ./box "${@:2}" >"$work/said" 2>&1 || status=$?
    [ "$status" -eq "$1" ] || fail "./box ${*:2} ends with $status, not $1: $(cat "$work/said")"
}
says() { grep -qF -- "$1" "$work/said" || fail "it isn't said: $1, but: $(cat "$work/said")"; } # WORDS

ends 0 --help
ends 0 --version
says "tariff "
printf 'N\nN N\nN\n' >"$work/bad.box"
ends 1 "$work/bad.box"
says "a line that can't be read"
ends 1 --store "$work/bad.box"
ends 1 list "$work/bad.box"
printf '> Words alone.\n' >"$work/none.lesson"
ends 1 "$work/none.lesson"
# scripts of D lines alone, with a byte order mark, with line ends as on Windows
grep '^D' examples/first.box >"$work/d.box"
ends 0 "$work/d.box"
ends 0 list "$work/d.box"
says "class "
ends 0 check "$work/d.box"
ends 0 asm "$work/d.box" "$work/d"
{ printf '\357\273\277' && sed 's/$/\r/' examples/first.box; } >"$work/windows.box"
ends 0 "$work/windows.box"
says "finished"
ends 0 check "$work/windows.box"
# the same answers with the program boxscript and without it
for script in examples/*.box; do
    ./box "$script" >"$work/one" && "$(./box --build)" "$script" >"$work/two" && cmp "$work/one" "$work/two" ||
        fail "$script is answered otherwise without boxscript"
done

# ---- many files
mkdir "$work/many" "$work/many/below"
./box asm examples/spoofed-discount.lesson "$work/many" >/dev/null
file=$(find "$work/many" -name '*.class' | head -n 1)
for place in $(seq 3000); do cp "$file" "$work/many/below/$place.class"; done
printf '\1\0\1' >"$work/many/below/bad.class"
echo "no class file, and not looked at" >"$work/many/README"
ends 1 check "$work/many"
says "below/bad.class: Damaged: refused: 2, file: byte"
says "below/3000.class: "
says "1 refused"
ends 1 check --quiet "$work/many" "$file"
[ "$(wc -l <"$work/said")" -eq 1 ] || fail "--quiet says more than what is refused"
ends 0 check "$file" examples/first.lesson examples/first.box
ends 2 check "$file" "$work/nothing-there"
ends 1 check "$work/bad.box" "$file"
mkdir "$work/empty"
ends 2 check "$work/empty"
exit "$wrong"
