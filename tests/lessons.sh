#!/usr/bin/env bash
# The writer's tool: its own tests, the course's lessons on the proved machine, each mistake's lesson on a machine that makes it, the lessons
# on dead objects, the report's share, groups of ties, offered loads, choices, loops, rates, hidden fields and clashes on machines that do them wrongly, what ./box says of mistakes in a text, and any bytes for a
# minute.
#
#   tests/lessons.sh                   all of it
#   tests/lessons.sh --write-errors    writes what ./box says to tools/tests/errors, to be read before it is committed
set -euo pipefail
cd "$(dirname "$0")/.."
tests/build host desk boxscript
wrong=0
tools=${CARGO_TARGET_DIR:-$PWD/tools/target}
work=$(mktemp -d)
trap 'rm -rf "$work"' EXIT

fail() { # WORDS
    echo "lessons: $*"
    wrong=1
}

# Its own tests, any bytes for a minute among them; none is left out.
own() {
    local ran
    TARIFF_LIB=$PWD/target/staticlib FUZZ_SECONDS=${FUZZ_SECONDS:-60} cargo test --manifest-path tools/Cargo.toml --offline --release --quiet \
        --features host --target-dir "$tools/host" --lib --test round_trips --test lessons --test why --test how --test changeover --test editors --test fuzz 2>&1 | tee "$work/own" || fail "a test of tools/"
    ran=$(awk '/^test result: ok\. [0-9]+ passed/ { ran += $4 } END { print ran + 0 }' "$work/own")
    [ "$ran" -ge 26 ] || fail "only $ran tests of tools/ ran"
}

# What ./box says of each text with a mistake, and its exit status.
errors() {
    local input said count=0
    for input in tools/tests/errors/*.lesson tools/tests/errors/*.check tools/tests/errors/*.list; do
        count=$((count + 1))
        said=${input%.*}.out
        case $input in
        *.lesson) set -- ;;
        *) set -- "${input##*.}" ;;
        esac
        { ./box "$@" "$input" 2>&1 && echo "status 0"; } >"$work/said" || echo "status $?" >>"$work/said"
        if [ -n "$write" ]; then cp "$work/said" "$said"; fi
        diff "$said" "$work/said" || fail "./box $* $input says something else"
    done
    [ "$count" -gt 20 ] || fail "there are only $count texts with a mistake"
}

# Each lesson through ./box, as a person runs it; its script, if it has one, goes through the proved program.
lessons() {
    local lesson count=0
    for lesson in examples/*.lesson; do
        [ -e "$lesson" ] || continue
        count=$((count + 1))
        ./box --store --draw "$lesson" "$work/picture.svg" >"$work/out" 2>&1 || { cat "$work/out"; fail "$lesson fails"; }
        if [ -e "${lesson%.lesson}.box" ]; then
            ./box "${lesson%.lesson}.box" >"$work/out" || fail "${lesson%.lesson}.box ends with an error"
            grep -q "^R 1 2 0 .*loader 1 records Object as 0: recorded$" "$work/out" || fail "${lesson%.lesson}.box isn't in words"
        fi
    done
    [ "$count" -gt 19 ] || fail "there are only $count lessons"
}

# The answers to the course's exercises, and the pages that it names.
course() {
    local lesson name count=0
    for lesson in docs/course/*.lesson; do
        count=$((count + 1))
        ./box "$lesson" >"$work/out" 2>&1 || { cat "$work/out"; fail "$lesson fails"; }
        grep -q 'all met$\|, met$' "$work/out" || fail "$lesson expects nothing"
    done
    [ "$count" -eq 10 ] || fail "there are $count answers to the course's exercises"
    for name in $(awk -F'|' '/^\| [0-9]/ { gsub(/, then/, "", $5); print $5 }' docs/COURSE.md); do
        [ -e "examples/$name.lesson" ] || fail "docs/COURSE.md names the page $name, and there is no such lesson"
    done
    awk '/^## A lesson of one/ { on = 1 } on && /^    / { print substr($0, 5) }' docs/COURSE.md >"$work/orders.lesson"
    ./box "$work/orders.lesson" >"$work/out" 2>&1 || fail "the lesson of docs/COURSE.md fails"
    grep -q "^orders A and B part at Red defines Discount: refused: 9, clash in A, defined: class 3 in B$" "$work/out" || fail "the orders of docs/COURSE.md don't part"
}

# Texts through the assembler, and their files listed and assembled again.
assembler() {
    local file
    ./box asm examples/spoofed-discount.lesson "$work/one" >/dev/null
    ./box asm examples/instalments.lesson "$work/one" >/dev/null
    for file in "$work"/one/*.class; do
        ./box list "$file" >"$work/listing"
        ./box asm "$work/listing" "$work/two" >/dev/null
        cmp "$file" "$work/two/"*.class || fail "$(basename "$file") isn't the same after a listing"
        ./box check "$file" >/dev/null || fail "$(basename "$file") isn't accepted"
        rm -r "$work/two"
    done
}

# The lessons that README.md and docs/LESSONS.md print do what they say.
printed() {
    awk '/^    name Policy/ { on = 1 } on && /^[^ ]/ { exit } on { print substr($0, 5) }' README.md >"$work/readme.lesson"
    awk '/^## A lesson of one/ { on = 1; next } on && /^[^ ]/ { exit } on { print substr($0, 5) }' docs/LESSONS.md >"$work/mine.lesson"
    ./box "$work/readme.lesson" >"$work/out" || fail "README.md's lesson fails"
    grep -q "^ok  step  *finished: the quote with 7$" "$work/out" || fail "README.md's lesson has no quote"
    ./box --draw "$work/mine.lesson" "$work/mine.svg" >"$work/out" || fail "the lesson of docs/LESSONS.md fails"
    grep -q "class 4 of loader 2? refused" "$work/mine.svg" || fail "the picture of docs/LESSONS.md has no clash"
    awk '/^    ok  loader 2 defines Bonus/ { on = 1 } on && /^$/ { exit } on { print substr($0, 5) }' docs/LESSONS.md >"$work/chain"
    ./box why --draw examples/why-a-load-clashed.lesson "$work/why.svg" >"$work/out" || fail "./box why fails"
    { [ -s "$work/chain" ] && ! grep -vxFf "$work/out" "$work/chain"; } || fail "the chain of docs/LESSONS.md isn't said"
    grep -q "below, row 2" "$work/why.svg" || fail "the chain of docs/LESSONS.md isn't drawn"
    awk '/^    ok  how Red Plan/ { on = 1 } on && /^$/ { exit } on { print substr($0, 5) }' docs/LESSONS.md >"$work/order"
    ./box how examples/how-could-this-load.lesson >"$work/out" || fail "./box how fails"
    { [ -s "$work/order" ] && ! grep -vxFf "$work/out" "$work/order"; } || fail "the order of docs/LESSONS.md isn't said"
}

# Wrong usage ends with 2.
usage() {
    local words status
    for words in "" "--store" "nothing-there.lesson" "list" "check nothing-there" "asm examples/first.lesson" "--what examples/first.box" \
        "--draw examples/first.lesson mine.lesson" "examples/first.lesson mine.svg" "examples" "why" "why nothing-there.lesson" \
        "why --what examples/first.lesson" "how" "how nothing-there.lesson" "how --what examples/first.lesson" "page" "page nothing-there.lesson" "page examples/first.lesson -o" "talk examples/first.lesson" "watch" \
        "watch nothing-there.lesson" "change-over" "change-over nothing-there" "change-over examples/first.lesson new.store more"; do
        status=0
        # shellcheck disable=SC2086
        ./box $words >"$work/out" 2>&1 || status=$?
        [ "$status" -eq 2 ] || fail "./box $words ends with $status"
    done
}

# Saved stores of the old layout: zeros before any boot are changed over; another length, and an old store that is broken, are refused and write nothing.
changing() {
    head -c 68496 /dev/zero >"$work/old"
    ./box change-over "$work/old" "$work/new" >"$work/out" || fail "./box change-over refuses zeros"
    [ "$(wc -c <"$work/new")" -eq 70868 ] || fail "./box change-over writes no store"
    rm "$work/new"
    head -c 68495 /dev/zero >"$work/old"
    ./box change-over "$work/old" "$work/new" >"$work/out" 2>&1 && fail "./box change-over takes a file of any length"
    grep -q "has 68495 bytes, and an old store 68496" "$work/out" || fail "./box change-over doesn't say what is wrong with a length"
    { head -c 6 /dev/zero; printf '\377\377'; head -c 68488 /dev/zero; } >"$work/old"
    ./box change-over "$work/old" "$work/new" >"$work/out" 2>&1 && fail "./box change-over takes a broken store"
    grep -q "refused: 1, broken" "$work/out" || fail "./box change-over doesn't say that a store is broken"
    [ ! -e "$work/new" ] || fail "./box change-over writes what is refused"
}

# A machine that lists another chain than the reason for some load of the lesson isn't believed.
unbelieved() { # LESSON FAULTS..
    local fault
    for fault in "${@:2}"; do
        MIRROR_FAULT=$fault "$writer" why "$1" >"$work/out" 2>&1 && fail "./box why believes the machine $fault"
        grep -q "which the second implementation doesn't take for the reason" "$work/out" || { cat "$work/out"; fail "./box why on the machine $fault"; }
    done
}

# A machine that searches wrongly isn't believed, where the answer is the lesson's.
doubted() { # LESSON FAULTS..
    local fault
    for fault in "${@:2}"; do
        MIRROR_FAULT=$fault "$writer" how "$1" >"$work/out" 2>&1 && fail "./box how believes the machine $fault"
        grep -q "the loads found lead to another store\|the search's second store isn't the box's" "$work/out" || { cat "$work/out"; fail "./box how on the machine $fault"; }
    done
}

# The mirror stands in for the libraries: right, it passes; with a learner's mistake, that mistake's lesson fails.
mistakes() {
    local mirror=$PWD/reference/target/mirror/release writer=$tools/mirror/release/writer lesson name fault faults tried
    # a lesson, and the names of the mirror's faults that it must show
    local -A shown=(
        [mistake-1]="checks-only-constraints-on-the-request|joins-only-direct-ties"
        [mistake-2]=superclass-under-the-asking-loader
        [mistake-3]="([a-z]+-)?posts-and-then-refuses"
        [mistake-4]=overriding-ties-nothing
        [mistake-5]=compares-by-name
        [dead-objects]="sweep-(forgets-locals|forgets-the-report|frees-[a-z]+|tells-[a-z-]+)|freed-objects-count-for-full"
        [a-week-of-reports]="a-share-of-[a-z-]+|the-share-[a-z-]+|the-quotes-objects-are-counted|everyones-objects-are-counted|a-freed-row-is-still-counted|full-comes-before-the-share|a-task-without-frames-holds-nothing|new-asks-for-no-share"
        [taken-back]="a-(define|record)-isnt-remembered|(classes|entries|ties)-arent-cut|all-is-taken-back|a-taking-back-closes|nothing-to-take-back-is-accepted|an-idle-step-closes|a-run-of-nothing-closes|a-refused-(load|start)-closes|a-record-of-what-is-there-[a-z-]+|(start|drop|sweep|a-run)-doesnt-close|drop-[a-z-]+-doesnt-close|a-(sweep-that-frees-nothing|step-that-ran)-doesnt-close"
        [groups-of-ties]="the-(higher-number-is-kept|new-ties-number-is-taken|(first|second)-end-alone-is-united|other-ties-of-a-group-stay|right-partition-under-another-number-is-right|cells-behind-the-groups-are-looked-at)|a-rows-place-for-its-number|each-tie-has-its-own-number|loaders-dont-count|a-(step-writes-its-tie|load-writes-its-ties)-and-no-group|groups-arent-made-anew-after-a-taking-back|a-refused-define-joins-groups|a-loads-own-ties-arent-in-its-groups|groups-are-(never-broken|compared-for-the-first-tie-alone)|one-number-for-two-groups-is-right|a-group-may-have-two-numbers|ties-that-are-gone-count-for-groups"
        [how-could-this-load]="one-order-a-set|the-highest-numbers-win|depth-first-without-length|every-load-that-is-accepted-is-made|offers-are-judged-on-the-box-alone|records-of-new-classes-arent-tried|any-loader-will-do|none-for-cached|numbers-count-from-one|int-may-be-wanted"
        [changing-over]="a-waiting-frame-goes-back-to-its-call|every-class-is-a-load|the-copy-is-swept|filled-before-it-is-judged"
        [age-bands]="less-than-[a-z-]+|jumps-from-the-instruction|offsets-from-the-instruction|unmapped-is-unverified|unset-for-int"
        [instalments]="ifeq-[a-z-]+|a-jump-to-itself-is-stuck|sweep-forgets-unset-locals|a-set-local-stays-set"
        [rates]="quotients-are-[a-z]+|divide[sd]-[a-z-]+|the-least-by-[a-z-]+|zero-divisor-is-[a-z]+|a-refused-division-[a-z-]+|products-[a-z-]+|rates-in-version-one"
        [hidden-fields]="the-[a-z]+-slot-[a-z-]+|the-slot-[a-z-]+|resolution-by-name-alone|another-type-nearer-is-absent|the-field-nearest-to-the-top|one-place-[a-z-]+|define-refuses-hidden-[a-z-]+|hidden-fields-dont-count"
        [a-premium]="arguments-in-reverse|arguments-from-local-zero|lists-(by-their-length|in-any-order)|start-finds-a-method-without-arguments|version-one-calls-no-version-three|verifies-arguments-in-reverse|locals-from-zero"
        [a-join]="flow-to-the-target-not-checked|notes-upside-down"
    )
    (cd reference && cargo build --offline --release --quiet -p mirror --target-dir target/mirror)
    TARIFF_LIB=$mirror TARIFF_LINK=dylib=tariff cargo build --manifest-path tools/Cargo.toml --offline --release --quiet --features host --target-dir "$tools/mirror"
    export LD_LIBRARY_PATH=$mirror
    for lesson in examples/*.lesson; do
        "$writer" "$lesson" >/dev/null 2>&1 || fail "$lesson fails on the second implementation"
    done
    for name in "${!shown[@]}"; do
        tried=0
        lesson=$(echo examples/"$name"*.lesson)
        faults=$(grep -ohE "^    \\(\"(${shown[$name]})\"" reference/mirror/src/*.rs reference/src/gen/plain.rs | tr -d '( "')
        for fault in $faults; do
            tried=$((tried + 1))
            MIRROR_FAULT=$fault "$writer" "$lesson" >"$work/out" 2>&1 && fail "$lesson passes on the machine $fault"
            grep -q "^NO" "$work/out" || { cat "$work/out"; fail "$lesson on the machine $fault"; }
        done
        [ "$tried" -gt 0 ] || fail "no machine fails $lesson"
    done
    unbelieved examples/why-a-load-clashed.lesson a-chain-without-its-last-row the-chain-is-listed-downward rows-are-listed-by-table a-clash-yields-no-chain
    unbelieved examples/the-shortest-reason.lesson a-longer-chain the-other-reading the-lower-row-at-the-first-difference the-newer-row-before-the-length
    doubted examples/how-could-this-load.lesson the-second-is-left-from-a-try the-second-stays-the-boxs the-trace-begins-anew the-second-keeps-what-it-held-where-nothing-is-found
    MIRROR_FAULT=desk-skips-the-verifier "$writer" check tools/tests/errors/unverified.check >"$work/out" 2>&1 && fail "a wrong desk is believed"
    grep -q "the desk says 0 and the second implementation 6" "$work/out" || fail "a wrong desk isn't named"
    unset LD_LIBRARY_PATH
}

write=''
if [ "${1:-}" = --write-errors ]; then
    write=1
    errors
    exit
fi
own
lessons
course
assembler
printed
usage
changing
errors
mistakes
exit "$wrong"
