#!/usr/bin/env bash
# installed.sh ROOT: installs into the empty folder ROOT and uses what is there as a stranger does, by pkg-config alone. Then an installation for a
# package, under DESTDIR, and its removal. Run from the repository's root.
set -euo pipefail
root=$1
dir=$(mktemp -d)
trap 'rm -rf "$dir"' EXIT
trap 'echo "installed: line $LINENO fails"' ERR
make() { command make --no-print-directory "$@"; }
files() { (cd "$1" && find . ! -type d | sed 's,^\./,,' | sort); }

rm -rf "$root"
make install PREFIX="$root"
diff <(make install-files | sort) <(files "$root")

export PKG_CONFIG_PATH=$root/lib/pkgconfig LD_LIBRARY_PATH=$root/lib
version=$(printf '#include <trace.h>\nTRACE_VERSION\n' | gcc -E -P $(pkg-config --cflags trace) - | tail -n 1 | tr -d '" ')
[ "$(pkg-config --modversion trace)" = "$version" ]

# the examples, linked with the shared library, and with the archive
cc="gcc -std=c99 -O2 -Wall -Wextra -Wpedantic -Werror"
examples="commission rules parts console lap sort"
for example in $examples; do
    $cc examples/$example.c $(pkg-config --cflags --libs trace) -o "$dir/$example"
    grep -q "libtrace.so.[0-9]* => $root/lib/" <<<"$(ldd "$dir/$example")"
done
bash tests/example.sh "$dir"
for example in $examples; do
    $cc examples/$example.c $(pkg-config --cflags trace) "$(pkg-config --variable=libdir trace)/libtrace.a" -o "$dir/$example"
done
bash tests/example.sh "$dir"

# the programs
"$root/bin/tracerules" <demo/rules.txt >"$dir/rules.tab"
[ "$(cd "$dir" && echo '12:04 lift 29' | "$root/bin/tracecut")" = "$(printf 'line 1 ok 3\n1 0 5\n2 6 4\n3 11 2')" ]

# for a package: the same files under DESTDIR, none of which names it; and none is left behind
make install DESTDIR="$dir/stage" PREFIX=/usr
diff <(files "$root") <(files "$dir/stage/usr")
grep -q '^prefix=/usr$' "$dir/stage/usr/lib/pkgconfig/trace.pc"
if grep -rq "$dir" "$dir/stage"; then
    echo "installed: a file names DESTDIR"
    exit 1
fi
make uninstall DESTDIR="$dir/stage" PREFIX=/usr
[ -z "$(files "$dir/stage")" ]
echo "installed: version $version, $(files "$root" | wc -l) files ok"
