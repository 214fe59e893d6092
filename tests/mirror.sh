#!/usr/bin/env bash
# The comparison itself, tried: a mirror of the second implementation stands in for the verified libraries. It must pass, and
# each of its faults must be seen.
# Needs nothing that is proved.
set -euo pipefail
cd "$(dirname "$0")/../reference"
work=$(mktemp -d)
trap 'rm -rf "$work"' EXIT
built=target/mirror

cargo build --offline --release --quiet -p mirror --target-dir "$built"
# one program for all the runs; cargo says where it is
TARIFF_LIB=$PWD/$built/release TARIFF_LINK=dylib=tariff cargo test --offline --release --quiet --features host --test host --target-dir "$built" \
    --no-run --message-format=json >"$work/built"
compare=$(sed -n 's|.*"executable":"\([^"]*/host-[^"]*\)".*|\1|p' "$work/built")
[ -x "$compare" ] || { cat "$work/built"; echo "the comparison isn't built"; exit 1; }

# all six tests, on seeds enough for every shape of damage and all that long runs meet; for a fault fewer will do
passes() {
    TARIFF_SEEDS=120 TARIFF_LONG=400 "$compare" >"$work/said" 2>&1 && grep -q '^test result: ok\. 6 passed' "$work/said"
}
passes || { cat "$work/said"; exit 1; }

tables=(mirror/src/faults.rs mirror/src/mapped.rs mirror/src/rates.rs mirror/src/hidden.rs mirror/src/listed.rs mirror/src/shared.rs mirror/src/tried.rs mirror/src/chosen.rs mirror/src/taken.rs mirror/src/grouped.rs mirror/src/carried.rs mirror/src/searched.rs mirror/src/numbered.rs mirror/src/remembered.rs src/gen/plain.rs)
faults=$(sed -n 's/^    ("\([a-z-]*\)",.*/\1/p' "${tables[@]}")
# the list has every fault that the mirror can have
declared=$(sed -n 's/.*const \(FAULTS\|DESKS\|SLIPS\): \[.*; \([0-9]*\)\].*/\2/p' "${tables[@]}" | awk '{ sum += $1 } END { print sum + 0 }')
[ "$declared" -gt 0 ] && [ "$(echo "$faults" | wc -w)" -eq "$declared" ] || { echo "not every fault of the mirror is tried"; exit 1; }
for fault in $faults; do
    # of a wrong search and of a wrong long run it is said beside its name what the comparison says
    reason=$(sed -n 's/^    ("'"$fault"'", "\(.*\)", .*/\1/p' mirror/src/searched.rs mirror/src/remembered.rs | sed 's/\\"/"/g')
    test=the_two_machines_are_the_same
    if grep -q "^    (\"$fault\"," mirror/src/remembered.rs; then test=long_runs_are_the_same; fi
    if MIRROR_FAULT=$fault TARIFF_SEEDS=40 TARIFF_LONG=200 "$compare" "$test" >"$work/said" 2>&1 || ! grep -q "${reason:-differ}" "$work/said"; then
        cat "$work/said"
        echo "not seen: $fault"
        exit 1
    fi
    # of a changeover, the words that it must be seen by
    reason=$(sed -n "s/^    (\"$fault\", \"\([^\"]*\)\",.*/\1/p" mirror/src/carried.rs)
    if [ -n "$reason" ] && ! grep -q "the changeover differs.*$reason" "$work/said"; then
        cat "$work/said"
        echo "seen for another reason: $fault"
        exit 1
    fi
    # of a choice between chains, the purpose that it must be seen by
    purpose=$(sed -n "s/^    (\"$fault\", \"\([^\"]*\)\",.*/\1/p" mirror/src/chosen.rs)
    if [ -n "$purpose" ] && { MIRROR_FAULT=$fault "$compare" every_choice_is_the_one_written_down >"$work/said" 2>&1 || ! grep -q "^$purpose: differs" "$work/said"; }; then
        cat "$work/said"
        echo "not seen by '$purpose': $fault"
        exit 1
    fi
    echo "seen: $fault"
done
