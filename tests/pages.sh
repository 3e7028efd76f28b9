#!/usr/bin/env bash
# pages.sh INSTALLED: what README.md shows is so, and what the pages name is there. Run from the repository's root.
set -euo pipefail
fail() {
    echo "pages: $1"
    exit 1
}
dir=$(mktemp -d)
trap 'rm -rf "$dir"' EXIT
program=$(pwd)/target/bin/tracecut
pages=(README.md CONTRIBUTING.md docs/*.md)
# listing N: the Nth listing of README.md; quoted: what stands in `` in the pages
listing() { awk -v n="$1" '/^```/ { fences++; next } fences == 2 * n - 1' README.md; }
quoted() { grep -ohE '`[^`]+`' "$@" | tr -d '`' | sort -u; }

# the first listing is the demo's rule, by which the line of the second gives the tokens of the third
listing 1 | diff demo/rules.txt - || fail "the rule is not demo/rules.txt"
target/bin/tracerules <demo/rules.txt >"$dir/rules.tab"
(cd "$dir" && "$program") < <(listing 2) | tail -n +2 | diff <(listing 3) - || fail "the demo's line has other tokens"

# the fourth listing is examples/first.c, and the fifth what it prints
listing 4 | diff examples/first.c - || fail "the C code is not examples/first.c"
export PKG_CONFIG_PATH=$1/lib/pkgconfig LD_LIBRARY_PATH=$1/lib
gcc -std=c99 -O2 -Wall -Wextra -Wpedantic -Werror examples/first.c $(pkg-config --cflags --libs trace) -o "$dir/first"
"$dir/first" | diff <(listing 5) - || fail "examples/first.c prints something else"

# docs/GUIDE.md has the rules of examples/lap.c, and shows what it prints
sed -n 's/^static const char l[a-z]*_rule\[\] = "\(.*\)";$/\1/p' examples/lap.c >"$dir/rules"
[ "$(wc -l <"$dir/rules")" -eq 2 ] || fail "examples/lap.c has other rules than two"
while IFS= read -r rule; do
    grep -qxF "rule: $rule" docs/GUIDE.md || fail "docs/GUIDE.md does not have the rule $rule"
done <"$dir/rules"
# and that of examples/sort.c
sed -n 's/^static const char sample_rule\[\] = "\(.*\)";$/\1/p' examples/sort.c >"$dir/rule"
[ "$(wc -l <"$dir/rule")" -eq 1 ] || fail "examples/sort.c has other rules than one"
grep -qxF "rule: $(<"$dir/rule")" docs/GUIDE.md || fail "docs/GUIDE.md does not have the rule of examples/sort.c"
for example in lap sort; do
    [[ $(<docs/GUIDE.md) == *"$(sed 's/^/    /' examples/$example.expected)"* ]] || fail "docs/GUIDE.md shows something else than examples/$example.expected"
done

# README.md names every crate, and every C function that a program calls
for crate in $(sed -n 's/^\([a-z_]*\)[^:]*:.*/\1/p' crates.txt); do
    grep -q "^| \`$crate\` |" README.md || fail "README.md has no line for the crate $crate"
done
for name in $(nm target/bin/* | awk '$1 == "U" { print $2 } $2 == "T" && $3 ~ /^rattle_/ { print $3 }' | sed 's/@.*//' | sort -u); do
    grep -q "\`$name\`" README.md || fail "README.md does not name $name, which a program calls"
done

# each file that a page names by its path is there; each must-fail edit, function and other name of docs/PROMISES.md that stands alone and has an
# underscore; and each definition or theorem that is written with its file. Other names that stand alone are not looked for
for path in $(quoted "${pages[@]}" | grep -E '^(bench|crates|demo|docs|examples|include|man|packaging|tests)/[A-Za-z0-9_./+-]*$' | grep -vE '\b(NAME|CRATE|NN)\b'); do
    [ -e "$path" ] || [ -e "crates/$path" ] || fail "no file $path"
done
for name in $(quoted docs/PROMISES.md | grep -E '^[a-z0-9]+(_[a-z0-9]+)+$'); do
    grep -qrE "\b$name\b" crates/*/src || ls crates/*/must-fail/"$name.edit" >/dev/null 2>&1 || [ -d "crates/$name" ] ||
        grep -qrE "^ *((pub|abbrev|unfoldable) )*$name( .*)? :( |$)" crates/*/{specs,proofs} || fail "no must-fail edit, function, definition or theorem $name"
done
for name in $(quoted docs/PROMISES.md docs/FORMATS.md docs/REVIEW.md | grep -E '^[A-Z][A-Za-z]+\.[A-Za-z_-]+$' | grep -vE '\.(antt|md|rt)$|^File\.name$'); do
    grep -qsE "(^|[ {])${name#*.}([ ,:}]|$)" crates/*/{specs,proofs}/"${name%%.*}".antt || fail "no $name"
done
echo "pages: ok"
