#!/usr/bin/env bash
# make install into odd folders: the host program of docs/HOST.md and examples/quote.c compile by tariff.pc alone, in C and C++, without a
# warning, and run from another folder with the checkout gone; so does the command box. make uninstall leaves nothing.
set -uo pipefail
cd "$(dirname "$0")/.." || exit 2
tests/build host desk || exit 1
./box --build >/dev/null || exit 1
here=$PWD
work=$(mktemp -d)
trap 'rm -rf "$work"' EXIT
wrong=0
fail() { echo "install: $*"; wrong=1; } # WORDS

# the program that docs/HOST.md prints
awk '/^## A first program/ { on = 1; next }
    on && /^    / { print substr($0, 5); began = 1; next }
    on && /^$/ { if (began) print ""; next }
    on && began { exit }' docs/HOST.md >"$work/first.c"
grep -q tariff_boot "$work/first.c" || fail "docs/HOST.md prints no program"
cp examples/quote.c examples/quote.out "$work"

tree=$work/tree
tests/copied --built "$tree"
prefix="$work/an odd folder"
make -s -C "$tree" install PREFIX="$prefix" >"$work/said" 2>&1 || fail "make install: $(cat "$work/said")"
make -s -C "$tree" install PREFIX=/opt/tariff DESTDIR="$work/stage" >"$work/said" 2>&1 || fail "make install with DESTDIR: $(cat "$work/said")"
for file in bin/box lib/libtariff.a lib/pkgconfig/tariff.pc include/tariff.h include/desk.h share/man/man1/box.1 share/tariff/lessons/first.lesson \
    share/doc/tariff/HOST.md; do
    [ -s "$prefix/$file" ] || fail "$file isn't installed"
    [ -s "$work/stage/opt/tariff/$file" ] || fail "$file isn't installed below DESTDIR"
done
grep -qx 'prefix=/opt/tariff' "$work/stage/opt/tariff/lib/pkgconfig/tariff.pc" || fail "tariff.pc names DESTDIR"

# the checkout is out of the way: the copy is gone, and the first one hidden where that is allowed
rm -rf "$tree"
hidden=()
if unshare -m true 2>/dev/null; then hidden=(unshare -m sh -c 'mount -t tmpfs none "$0" && exec "$@"' "$here"); fi
mkdir "$work/elsewhere"
cd "$work/elsewhere" || exit 2
away() { ${hidden[@]+"${hidden[@]}"} env -i PATH=/usr/bin:/bin "$@"; } # COMMAND..

flags() { # as pkg-config says them, or as tariff.pc does
    if command -v pkg-config >/dev/null; then
        PKG_CONFIG_PATH=$prefix/lib/pkgconfig pkg-config --cflags --libs tariff
    else
        sed -n -e "s|\"\${includedir}\"|'$prefix/include'|" -e "s|\"\${libdir}\"|'$prefix/lib'|" -e 's/^Cflags: //p' -e 's/^Libs: //p' \
            "$prefix/lib/pkgconfig/tariff.pc"
    fi
}
flags=()
eval "flags=($(flags | tr '\n' ' '))"
papers=$(sed -n 's/^#define TARIFF_PAPERS //p' "$prefix/include/tariff.h")
if command -v pkg-config >/dev/null; then
    [ "$(PKG_CONFIG_PATH=$prefix/lib/pkgconfig pkg-config --modversion tariff)" = "$papers" ] || fail "tariff.pc has another version"
fi

for source in first quote; do
    for compiler in "gcc -std=c99" "gcc -std=c11" "g++ -x c++ -std=c++11" "clang -std=c11"; do
        command -v "${compiler%% *}" >/dev/null || continue
        # the libraries stand behind the source, and are none in C++
        # shellcheck disable=SC2086
        $compiler -O2 -Wall -Wextra -Wpedantic -Werror "../$source.c" -x none "${flags[@]}" -o "$source" || fail "$source.c by $compiler"
        away "./$source" >"$source.said" || fail "$source.c by $compiler ends with $?"
        case $source in
        quote) cmp ../quote.out quote.said || fail "quote.c prints something else" ;;
        *) grep -qF "$(away "$prefix/bin/box" --version)" first.said || fail "the program says another version than box" ;;
        esac
    done
done

# the command
version=$(away "$prefix/bin/box" --version)
case $version in "tariff $papers, layout "[0-9]*", proved by "?*) ;; *) fail "box --version says $version" ;; esac
if command -v rt >/dev/null; then
    case $version in *", proved by $(rt version)") ;; *) fail "$version, but rt is $(rt version)" ;; esac
fi
away "$prefix/bin/box" --help >/dev/null || fail "box --help"
for lesson in "$prefix"/share/tariff/lessons/*.lesson "$prefix"/share/tariff/lessons/*.box; do
    away "$prefix/bin/box" "$lesson" >said 2>&1 || fail "box $lesson: $(cat said)"
done
away "$prefix/bin/box" why --draw "$prefix/share/tariff/lessons/why-a-load-clashed.lesson" >said 2>&1 || fail "box why: $(cat said)"
away "$prefix/bin/box" asm "$prefix/share/tariff/lessons/first.lesson" classes >said 2>&1 && away "$prefix/bin/box" check classes >said 2>&1 ||
    fail "box asm and check: $(cat said)"
if command -v man >/dev/null; then MANPATH=$prefix/share/man man -w box 2>/dev/null | grep -q box.1 || fail "the manual page isn't found"; fi

cd "$here" || exit 2
make -s uninstall PREFIX="$prefix" && make -s uninstall PREFIX=/opt/tariff DESTDIR="$work/stage" || fail "make uninstall"
left=$(find "$prefix" "$work/stage" ! -type d)
[ -z "$left" ] || fail "make uninstall leaves $left"
exit "$wrong"
