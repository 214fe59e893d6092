#!/usr/bin/env bash
# Tariffs in Java: programs by hand and drawn at random with the same results on HotSpot, by the library and by boxscript; class files of the
# JDK and damaged ones, taken or refused; what is refused, in words; the course's lessons in Java; names, listings and wrong usage.
#
#   tests/java.sh                   all of it
#   tests/java.sh --write-refusals  writes what ./box says to tools/tests/java/refused, to be read before it is committed
set -euo pipefail
cd "$(dirname "$0")/.."
wrong=0
tools=${CARGO_TARGET_DIR:-$PWD/tools/target}
work=$(mktemp -d)
trap 'rm -rf "$work"' EXIT
export TMPDIR=$work

fail() { # WORDS
    echo "java: $*"
    wrong=1
}

# A JDK, which is installed where there is none.
if ! command -v javac >/dev/null || ! command -v java >/dev/null; then
    install="apt-get install -y default-jdk-headless"
    { [ "$(id -u)" -eq 0 ] && $install >"$work/install" 2>&1; } || { echo "java: there is no JDK; run: sudo $install"; exit 1; }
fi
tests/build host desk boxscript

# Programs on HotSpot and on the box, classes of the JDK, damaged ones; none of these tests is left out.
programs() {
    local ran
    TARIFF_LIB=$PWD/target/staticlib BOXSCRIPT=$PWD/target/bin/boxscript JAVA_PROGRAMS=${JAVA_PROGRAMS:-2000} JAVA_SCRIPTS=${JAVA_SCRIPTS:-150} \
        JAVA_DAMAGED=${JAVA_DAMAGED:-20000} cargo test --manifest-path tools/Cargo.toml --offline --release --quiet \
        --features host --target-dir "$tools/host" --test java -- --nocapture 2>&1 | tee "$work/programs" || fail "a test of tools/tests/java.rs"
    ran=$(awk '/^test result: ok\. [0-9]+ passed/ { ran += $4 } END { print ran + 0 }' "$work/programs")
    [ "$ran" -ge 5 ] || fail "only $ran tests of tools/tests/java.rs ran"
}

# What ./box says of Java that isn't taken.
refusals() {
    local file said
    for file in tools/tests/java/refused/*.java; do
        said=${file%.java}.out
        { ./box java "$file" -o "$work/refused" 2>&1 && echo "status 0"; } >"$work/said" || echo "status $?" >>"$work/said"
        if [ -n "$write" ]; then cp "$work/said" "$said"; fi
        diff "$said" "$work/said" || fail "./box java $file says something else"
        [ ! -e "$work/refused" ] || fail "$file is refused, and something is written"
    done
}

# The lessons, as a person runs them.
lessons() {
    local lesson count=0
    for lesson in examples/java/*.lesson; do
        count=$((count + 1))
        ./box --store --draw "$lesson" "$work/picture.svg" >"$work/out" 2>&1 || { cat "$work/out"; fail "$lesson fails"; }
        ./box check "$lesson" >"$work/out" 2>&1 || { cat "$work/out"; fail "$lesson has a class that the desk refuses"; }
    done
    [ "$count" -ge 4 ] || fail "there are only $count lessons in Java"
    ./box list examples/java/age-bands.lesson >"$work/out"
    grep -q "^        # Premium.java:11  if (age < 18) {$" "$work/out" || fail "a lesson's listing has no Java lines"
}

# The class and the lesson that docs/JAVA.md prints, from nothing to a quote.
printed() {
    mkdir "$work/mine"
    awk '/^    class Premium/ { on = 1 } on && /^[^ ]/ { exit } on { print substr($0, 5) }' docs/JAVA.md >"$work/mine/Premium.java"
    awk '/^    java Premium.java$/ { on = 1 } on && /^[^ ]/ { exit } on { print substr($0, 5) }' docs/JAVA.md >"$work/mine/mine.lesson"
    ./box "$work/mine/mine.lesson" >"$work/out" 2>&1 || { cat "$work/out"; fail "the lesson of docs/JAVA.md fails"; }
    grep -q "^ok  run 1000 .*finished: the quote with 12000" "$work/out" || fail "the lesson of docs/JAVA.md has no quote"
}

# Class files to box files: names are kept and added to, listings have the Java lines and assemble to the same bytes.
files() {
    local file
    mkdir "$work/javac"
    javac -d "$work/javac" examples/java/Policy.java examples/java/Premium.java
    ./box from-java "$work"/javac/*.class -o "$work/box" >"$work/out" || { cat "$work/out"; fail "./box from-java fails"; }
    cp "$work/box/names.txt" "$work/names"
    ./box from-java "$work"/javac/Premium.class -o "$work/box" | grep -q " 0 new names$" || fail "names that are there are new"
    cmp "$work/box/names.txt" "$work/names" || fail "the names aren't kept"
    for file in "$work"/box/*.class; do
        ./box list "$file" >"$work/listing"
        grep -q "^        # [A-Z][a-z]*.java:[0-9]" "$work/listing" || fail "$(basename "$file") is listed without Java lines"
        ./box asm "$work/listing" "$work/again" >/dev/null
        cmp "$file" "$work/again/"*.class || fail "$(basename "$file") isn't the same after a listing"
        ./box check "$file" >/dev/null || fail "the desk refuses $(basename "$file")"
        rm -r "$work/again"
    done
    ./box from-java "$work/javac/Policy.class" -o "$work/javac" >"$work/out" 2>&1 && fail "Java's class file is written over"
    grep -q "would be lost: choose another folder" "$work/out" || fail "it isn't said what would be lost"
    printf 'name Premium 100\nname of 100\n' >"$work/clash"
    ./box from-java "$work/javac/Premium.class" -o "$work/box" --names "$work/clash" >"$work/out" 2>&1 && fail "a clash of numbers is no error"
    grep -q "100 is Premium already" "$work/out" || fail "a clash of numbers isn't said"
}

# Wrong usage ends with 2, and a machine without javac says what to install.
usage() {
    local words status
    for words in "java" "from-java" "java nothing-there.java" "from-java examples/java/Plan.java" "java examples/first.lesson" \
        "java examples/java/Plan.java -o" "from-java -x examples/java/Plan.java"; do
        status=0
        # shellcheck disable=SC2086
        ./box $words >"$work/out" 2>&1 || status=$?
        [ "$status" -eq 2 ] || fail "./box $words ends with $status"
    done
    status=0
    mkdir "$work/nothing"
    PATH=$work/nothing JAVA_HOME='' "$tools/host/release/writer" java examples/java/Plan.java >"$work/out" 2>&1 || status=$?
    { [ "$status" -eq 1 ] && grep -q "install a JDK, as by: sudo apt-get install default-jdk-headless" "$work/out"; } || fail "nothing is said where there is no javac"
}

write=''
if [ "${1:-}" = --write-refusals ]; then
    write=1
    refusals
    exit
fi
programs
lessons
printed
refusals
files
usage
exit "$wrong"
