#!/usr/bin/env bash
# The pages of all lessons in a headless Chromium, driven through every call: the texts shown are the machine's answers as ./box prints them,
# the quiz counts right and wrong picks, back and forth leaves the same page, no script error, nothing is fetched, nothing is too wide for a
# phone; lessons whose words would be obeyed, 1,000 calls, 40,000 calls, 256 objects; one step a page in print; an index in teaching order.
set -euo pipefail
cd "$(dirname "$0")/.."
if [ -z "${BOX:-}" ]; then tests/build host desk; fi
box=${BOX:-./box}
work=$(mktemp -d)
trap 'rm -rf "$work"' EXIT

browser=$(command -v chromium || command -v chromium-browser || true)
if [ -z "$browser" ] && [ "$(id -u)" = 0 ] && command -v apt-get >/dev/null; then
    install=(apt-get install -y --no-install-recommends chromium)
    { "${install[@]}" || { apt-get update && "${install[@]}"; }; } >"$work/apt" 2>&1 || tail -n 5 "$work/apt"
    browser=$(command -v chromium || true)
fi
[ -n "$browser" ] || { echo "page: there is no Chromium here; install it, as by: sudo apt-get install chromium"; exit 1; }

lessons=()
for lesson in examples/*.lesson; do lessons+=("$lesson"); done
# the lessons in Java have pages too where there is a javac; here those that need none
mkdir "$work/lessons"
cp "${lessons[@]}" examples/course.txt "$work/lessons"
$box page "$work/lessons" -o "$work/pages" >"$work/said" || { cat "$work/said"; exit 1; }
for name in $(sed -n 's/^\([a-z0-9-]*\):.*/\1/p' examples/course.txt); do
    [ -e "examples/$name.lesson" ] || { echo "page: examples/course.txt names $name, which isn't there"; exit 1; }
done
sed -n 's/.*<li><a href="\([^"]*\)\.html".*/\1/p' "$work/pages/index.html" >"$work/order"
sed -n 's/^\([a-z0-9-]*\):.*/\1/p' examples/course.txt | cmp - <(head -n "$(grep -c '^[a-z0-9-]*:' examples/course.txt)" "$work/order") ||
    { echo "page: the index isn't in the order of examples/course.txt"; exit 1; }
[ "$(wc -l <"$work/order")" -eq ${#lessons[@]} ] || { echo "page: the index hasn't every lesson"; exit 1; }
# shellcheck disable=SC2086
PYTHONDONTWRITEBYTECODE=1 python3 tests/page.py "$browser" $box -- "$work/pages" "${lessons[@]}"
