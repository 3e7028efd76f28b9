#!/bin/bash
# against.sh FOLDER: times the library of another clone, FOLDER, and this one's by turns in one run: each call by itself on the ordinary lines, then
# read + tokens on every work load and by the worst tables. Each is compiled with the header and linked with the library of its own clone, so that
# the formats may differ. Run make lib in both first (make bench-against does in this one).
# Microseconds: of BENCH_ROUNDS (5) timings of each the lowest. The ratio is this library's time through the other's: below 1 this one is faster.
# BENCH_MS: milliseconds of one repeat (30).
set -u
OTHER=$(realpath "${1:?the folder of another clone}") || exit 1
cd "$(dirname "$0")/.." || exit 1
MS=${BENCH_MS:-30}
ROUNDS=${BENCH_ROUNDS:-5}
CC=${CC:-gcc}
OUT=target/bench/against

fail() { echo "bench: $*" >&2; exit 1; }

# build NAME FOLDER: the programs NAME-ours and NAME-worst, from this clone's bench and that folder's header and library
build() {
    local flags="-O2 -Wall -Wextra -I$2/include -Ibench" library=$2/target/staticlib/libtrace.a program
    [ -f "$library" ] || fail "$library is missing: make lib"
    $CC $flags bench/ours.c bench/loads.c "$library" -o "$OUT/$1-ours" && $CC $flags bench/worst.c bench/tables.c "$library" -o "$OUT/$1-worst" || fail "build"
}
mkdir -p $OUT
build other "$OTHER"
build this .
$CC -O2 -Iinclude -Ibench bench/list.c bench/loads.c -o $OUT/list || fail "build"

# turns NAME PROGRAM N [CALL]: a row with the time of each and their ratio
turns() {
    local name=$1 other=() this=() round
    shift
    for ((round = 0; round < ROUNDS; round++)); do
        other+=("$("$OUT/other-$1" "$2" "$MS" "${@:3}" | head -n 1)")
        this+=("$("$OUT/this-$1" "$2" "$MS" "${@:3}" | head -n 1)")
    done
    awk -v name="$name" -v x="${other[*]}" -v y="${this[*]}" '
        function lowest(list,   times, count, i, low) {
            count = split(list, times, " ")
            for (i = 1; i <= count; i++) if (i == 1 || times[i] + 0 < low) low = times[i] + 0
            return low
        }
        BEGIN { a = lowest(x); b = lowest(y); if (!a || !b) exit 1; printf "%-44s %10.3f %10.3f %8.2f\n", name, a, b, b / a }' || fail "$name"
}

printf '%-44s %10s %10s %8s\n' "" "other" "this" "ratio"
for call in Check Read Spell Compare Tokens Order; do
    while read -r n bytes records name; do turns "$call, $name ($bytes bytes)" ours "$n" $call; done < <($OUT/list loads | head -n 3)
done
while read -r n bytes records name; do turns "$name ($bytes bytes)" ours "$n"; done < <($OUT/list loads)
while read -r n records bytes name; do turns "$name ($bytes bytes)" worst "$n"; done < <($OUT/this-worst)
