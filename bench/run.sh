#!/bin/bash
# Times our read + tokens against regular expression engines with capture groups, our calls one by one, the worst tables that are known, one key of a
# live line against a read of it, a page against its lines one by one, our time against the line's length and the table's size, our compile against the
# regcomp of the engines that have one, and our order on a long list. Run make lib first (make bench does).
#   bash bench/run.sh             prints the tables
#   bash bench/run.sh --markdown  prints the text of docs/BENCH.md and writes its pictures, docs/length.svg and docs/records.svg
# With all peers it takes about 5 minutes. BENCH_MS: milliseconds of two repeats (200). BENCH_CUT: seconds until a peer is cut (10).
# Every peer is a process of its own: engines replace one another's symbols when they are linked together.
set -u
cd "$(dirname "$0")/.." || exit 1
export LC_ALL=C.UTF-8
MARKDOWN=$([ "${1-}" = --markdown ] && echo yes)
MS=$((${BENCH_MS:-200} / 2))
CUT=${BENCH_CUT:-10}
CC=${CC:-gcc}
CXX=${CXX:-g++}
LIB=target/staticlib/libtrace.a
OUT=target/bench
FLAGS="-O2 -Wall -Wextra -Iinclude -Ibench"

fail() { echo "bench: $*" >&2; exit 1; }
header() { printf '#include <%s>\n' "$2" | $1 -E - >/dev/null 2>&1; }
version() { dpkg-query -W -f '${Version}' "$1" 2>/dev/null || echo "version not known"; }

# Builds what is found.
[ -f $LIB ] || fail "$LIB is missing: make lib"
mkdir -p $OUT/hs
$CC $FLAGS -c bench/loads.c -o $OUT/loads.o && $CC $FLAGS bench/list.c $OUT/loads.o -o $OUT/list &&
    $CC $FLAGS bench/ours.c $OUT/loads.o $LIB -o $OUT/ours && $CC $FLAGS bench/posix.c $OUT/loads.o -o $OUT/glibc &&
    $CC $FLAGS bench/worst.c bench/tables.c $LIB -o $OUT/worst && $CC $FLAGS bench/order.c $LIB -o $OUT/order &&
    $CC $FLAGS bench/live.c bench/tables.c $OUT/loads.o $LIB -o $OUT/live && $CC $FLAGS bench/page.c $OUT/loads.o $LIB -o $OUT/page &&
    $CC $FLAGS bench/compile.c $LIB -o $OUT/compile && $CC $FLAGS -DUSE_GLIBC bench/compile.c -o $OUT/compile-glibc || fail "build"
peers=(glibc)
compilers=(glibc)
found=("glibc: $(getconf GNU_LIBC_VERSION)")
missing=()
if header "$CC" tre/tre.h; then
    $CC $FLAGS -DUSE_TRE bench/posix.c $OUT/loads.o -ltre -o $OUT/TRE &&
        $CC $FLAGS -DUSE_TRE bench/compile.c -ltre -o $OUT/compile-TRE || fail "build with TRE"
    peers+=(TRE)
    compilers+=(TRE)
    found+=("TRE: libtre-dev $(version libtre-dev)")
else
    missing+=("TRE: install libtre-dev")
fi
if header "$CXX -std=c++17 -x c++" re2/re2.h; then
    $CXX -std=c++17 $FLAGS bench/re2.cc $OUT/loads.o $(pkg-config --cflags --libs re2 2>/dev/null || echo -lre2) -o $OUT/RE2 ||
        fail "build with RE2"
    peers+=(RE2)
    found+=("RE2 (longest match): libre2-dev $(version libre2-dev)")
else
    missing+=("RE2: install libre2-dev")
fi
if ghc-pkg list --simple-output regex-tdfa 2>/dev/null | grep -q .; then
    ghc -v0 -O2 -Wall -with-rtsopts=-M2g -outputdir $OUT/hs -o $OUT/tdfa bench/tdfa.hs || fail "build with regex-tdfa"
    peers+=(tdfa)
    found+=("tdfa (Haskell's regex-tdfa on byte strings): libghc-regex-tdfa-dev $(version libghc-regex-tdfa-dev)")
else
    missing+=("tdfa (Haskell's regex-tdfa): install ghc and libghc-regex-tdfa-dev")
fi

# run PROGRAM LOAD: cut after CUT seconds, or when it takes over 4 GiB (regex-tdfa: 2 GiB).
run() {
    case $1 in
    tdfa) $OUT/list "$2" | timeout -k 1 "$CUT" $OUT/tdfa "$MS" ;;
    *) (ulimit -v 4194304 && exec timeout -k 1 "$CUT" $OUT/"$1" "$2" "$MS") ;;
    esac 2>/dev/null
}

# Numbers with few digits; a ratio of two numbers.
us() { awk -v x="$1" 'BEGIN { printf x < 1 ? "%.3f" : x < 10 ? "%.2f" : x < 1000 ? "%.1f" : "%.0f", x }'; }
ratio() {
    awk -v x="$1" -v y="$2" 'BEGIN {
        r = x / y; digits = r < 100; for (s = r; s < 1 && digits < 6; s *= 10) digits++
        printf "%.*f", digits, r }'
}

# What the peers answer to load n, by programs with this prefix to their names: a cell for each.
ask() {
    local p answer
    cells=()
    for p in "${@:3}"; do
        answer=$(run "$1$p" "$2")
        case $? in
        0) cells+=("$answer") ;;
        124 | 137) cells+=(cut) cut=$((cut + 1)) ;;
        *) cells+=(failed) cut=$((cut + 1)) ;;
        esac
    done
}

# first PROGRAM N [CALL]: our first timing, which is kept. All are taken before the tables are, so that a slow spell of the machine does not cover
# both timings of a load.
declare -A early
first() { early[$*]=$($OUT/"$1" "$2" "$MS" "${@:3}") || fail "$*"; }

# both PROGRAM N [CALL]: our time, the lower of the first timing and one more, and how far they are apart in percent. While that is over 10,
# another is taken, up to four, and the two lowest count.
both() {
    local low high more try
    more=$($OUT/"$1" "$2" "$MS" "${@:3}") || fail "$*"
    read -r low high < <(printf '%s\n' "${early[$*]%%$'\n'*}" "${more%%$'\n'*}" | sort -g | xargs)
    for try in 1 2 3 4; do
        awk -v x="$low" -v y="$high" 'BEGIN { exit !(y > 1.1 * x) }' || break
        more=$($OUT/"$1" "$2" "$MS" "${@:3}") || fail "$*"
        read -r low high < <(printf '%s\n' "$low" "$high" "${more%%$'\n'*}" | sort -g | head -n 2 | xargs)
    done
    awk -v x="$low" -v y="$high" 'BEGIN { print x, 100 * (y / x - 1) }'
}

# One row of a table: the first cell to the left, the others to the right, as wide as in the head.
row() {
    local i=0 cell gap text=
    for cell in "$@"; do
        gap=$((wide[i] - ${#cell}))
        [ $gap -lt 0 ] && gap=0
        [ $i -gt 0 ] && text+=${MARKDOWN:+ |}' '
        [ $i -eq 0 ] && text+=$cell
        printf -v gap '%*s' $gap ''
        text+=$gap
        [ $i -gt 0 ] && text+=$cell
        i=$((i + 1))
    done
    echo "${MARKDOWN:+| }$text${MARKDOWN:+ |}"
}

# The head of a table: our columns are there, and each peer adds one.
heading() {
    local p line='|---|' i
    for p in "$@"; do
        head+=("$p µs (ratio)")
        wide+=(18)
    done
    row "${head[@]}"
    for ((i = 1; i < ${#head[@]}; i++)); do line+='---:|'; done
    [ -z "$MARKDOWN" ] || echo "$line"
}

# section TITLE: a title and the text from the input. Only the page keeps the backquotes.
section() {
    echo
    if [ "$MARKDOWN" ]; then
        printf '## %s\n\n' "$1"
        cat
    else
        printf '%s\n' "$1"
        tr -d '`'
    fi
    echo
}

# A name that is an expression gets backquotes in the page; in a cell of a table its bars are escaped.
shown() { if [ "$MARKDOWN" ] && [[ $1 == *['*|']* ]]; then echo "\`$1\`"; else echo "$1"; fi; }
cell() { local text; text=$(shown "$1"); [ "$MARKDOWN" ] && text=${text//|/\\|}; echo "$text"; }
percent() { printf '%.1f %%' "$1"; }

# timed N: our time of load n and the spread; cells: the peers' times with their ratios to ours, marked where the spans differ.
timed() {
    local spans i time mark
    ask "" "$1" "${@:2}"
    spans=${early[ours $1]#*$'\n'}
    read -r ours spread < <(both ours "$1") || exit 1
    for i in "${!cells[@]}"; do
        [ "${cells[i]}" = cut ] || [ "${cells[i]}" = failed ] && continue
        time=${cells[i]%%$'\n'*}
        mark=
        [ "${cells[i]#*$'\n'}" = "$spans" ] || { mark=' ≠' different=$((different + 1)); }
        cells[i]="$(us "$time") ($(ratio "$time" "$ours"))$mark"
    done
}

# series PART COLUMN TITLE AXIS: a table of the loads of that part, and in the page its picture. COLUMN: bytes or records, what is chosen.
series() {
    local n bytes records data=$OUT/$1.txt
    [ -z "$MARKDOWN" ] || printf '![%s](%s.svg)\n\n' "$3" "$1"
    head=("$2" "ours µs" spread)
    wide=(7 8 7)
    heading glibc
    while read -r n bytes records _; do
        timed "$n" glibc
        row "${!2}" "$(us "$ours")" "$(percent "$spread")" "${cells[@]}"
        echo "${!2} $ours ${cells[0]%% *}" >&3
    done < <($OUT/list "$1") 3>"$data"
    [ -z "$MARKDOWN" ] ||
        awk -v title="$3" -v across="$4" -v up="microseconds for one line" -v names="ours glibc" -f bench/plot.awk "$data" >"docs/$1.svg"
}

peer_lists() {
    echo "Peers found:"
    [ -z "$MARKDOWN" ] || echo
    printf -- '- %s\n' "${found[@]}"
    [ ${#missing[@]} -eq 0 ] && return
    echo
    echo "Peers not found (Debian packages that bring them):"
    [ -z "$MARKDOWN" ] || echo
    printf -- '- %s\n' "${missing[@]}"
}

calls=(Check Read Spell Compare Tokens Order)
worst_tables=$($OUT/worst) || fail "the worst tables"
# the lines by which one key of a live line is timed: name for the program, bytes, records, name
live_lines=$(
    $OUT/list loads | head -n 3 | sed 's/^/load:/'
    $OUT/list loads | head -n 3 | awk '{ $1 = "half:" $1; $2 = int($2 / 2); print $0 ", half" }'
    while read -r n records _ name; do
        for bytes in 18 80 255; do echo "table:$n:$bytes $bytes $records ${name%,*}"; done
    done <<<"$worst_tables"
)
for part in loads length records; do
    for n in $($OUT/list $part | cut -d' ' -f1); do first ours "$n"; done
done
for n in 0 1 2; do
    for call in "${calls[@]}"; do first ours $n "$call"; done
done
for n in $(cut -d' ' -f1 <<<"$worst_tables"); do first worst "$n"; done
for n in $(cut -d' ' -f1 <<<"$live_lines"); do
    first live "$n" Key
    first live "$n" Read
done
for n in $($OUT/page | cut -d' ' -f1); do
    first page "$n" Page
    first page "$n" Lines
done
for n in $($OUT/compile | cut -d' ' -f1); do first compile "$n"; done
for n in $($OUT/order | cut -d' ' -f1); do
    first order "$n"
    first order "$n" pass
done

if [ "$MARKDOWN" ]; then
    cat <<END
# Benchmark

Our read + tokens against what a user would pick instead: regular expression engines with capture groups, one process for each. Below are
refused lines, each call by itself, the worst tables, one key of a live line, a page, the time against the line's length and the table's size, our
compile against the engines' own, and our order of tokens on a long list. To repeat it: \`make bench\` prints the tables, and
\`bash bench/run.sh --markdown >docs/BENCH.md\` writes this page and its pictures. glibc is always there; the Debian packages libtre-dev,
libre2-dev, and ghc with libghc-regex-tdfa-dev bring the others.

- Each work load is one expression tree in \`bench/loads.c\`, written out as our table and as an anchored POSIX expression (for RE2 with
  capture groups for the tokens only). A token is a capture group that is not empty. Inside a star a group keeps the last
  iteration, so the last token of each tag is compared.
- Times are microseconds for one line: the median of 7 repeats of about $MS ms. Compiling the expression is outside; our calls check the
  table each time.
- The ratio is the peer's time through ours: above 1 we are faster, below 1 the peer is.
- ≠: the peer's spans differ from our tokens. cut: no answer within $CUT s. failed: the engine gave up, for instance out of memory.
- spread: our load is timed before all else and again after the peers; the difference of the two is the machine's noise, and the lower one
  counts. Where it is over 10 %, the load is timed again, up to four times, and the two lowest timings count.

## This run

Machine: $(awk -F': ' '/^model name/ { print $2; exit }' /proc/cpuinfo), $(nproc) cores; $($CC --version | head -n 1).
Load average at the start: $(cut -d' ' -f1 /proc/loadavg).

$(peer_lists)

END
else
    peer_lists
    echo
fi

head=("work load" bytes records "ours µs" spread)
wide=(28 5 7 8 7)
heading "${peers[@]}"
worst=0 worst_name= different=0 cut=0
times=() names=() sizes=()
while read -r n bytes records name; do
    timed "$n" "${peers[@]}"
    times[n]=$ours names[n]=$name sizes[n]="$bytes $records"
    awk -v x="$spread" -v y="$worst" 'BEGIN { exit !(x > y) }' && worst=$spread worst_name="$(shown "$name"), $bytes bytes"
    row "$(cell "$name")" "$bytes" "$records" "$(us "$ours")" "$(percent "$spread")" "${cells[@]}"
done < <($OUT/list loads)
echo
echo "Noise: our two runs differ by at most $(percent "$worst") ($worst_name). Different spans: $different. Cut or failed: $cut."
[ "$MARKDOWN" ] || echo "Ratio: the peer's time through ours; above 1 we are faster. ≠: other spans than ours. Cut after $CUT s."

section "The ordinary lines" <<<"Each expression, and its line."
[ -z "$MARKDOWN" ] || echo '```'
for n in 0 1 2; do $OUT/list $n | head -n 2; done
[ -z "$MARKDOWN" ] || echo '```'

section "Each call by itself" <<'END'
Microseconds of one call on the ordinary lines. Compare is asked for the reading with itself, and answers 0. Order is asked with 64 pairs, which
the line's tokens keep.
END
head=(line bytes records "${calls[@]/%/ µs}")
wide=(28 5 7 10 10 10 10 10 10)
heading
checks=()
for n in 0 1 2; do
    cells=()
    for call in "${calls[@]}"; do
        read -r time spread < <(both ours $n "$call") || exit 1
        [ "$call" = Check ] && checks[n]=$time
        cells+=("$(us "$time")")
    done
    row "${names[n]}" ${sizes[n]} "${cells[@]}"
done

section "Refused lines" <<'END'
Our time of each refused line of the first table, through the time of Check alone on the same table. At once: the first byte is one that the
rule does not have there. Inside and at the end: the byte in the middle, or the last one, is a tab, which no letter of the rule holds.
END
head=("refused line" bytes records "ours µs" "Check µs" "times Check")
wide=(28 5 7 8 8 11)
heading
for n in "${!names[@]}"; do
    [[ ${names[n]} == refused* ]] || continue
    for i in 0 1 2; do [ "${names[n]##*, }" = "${names[i]##* }" ] && check=${checks[i]}; done
    row "${names[n]}" ${sizes[n]} "$(us "${times[n]}")" "$(us "$check")" "$(ratio "${times[n]}" "$check")"
done

section "Worst tables" <<'END'
The tables of up to 255 records that are known to take longest, on lines of 255 bytes, ours alone. Those by name are as large as fits. Their lines are
bytes a, and for those that end in cd a d behind them, so that they are refused. The last is the slowest of 300 random tables of 255 records, the
same 300 in each run, on lines of one or two letters; its number is shown, and whether its line is read or refused.
END
head=(table records bytes "ours µs" spread)
wide=(28 7 5 8 7)
heading
while read -r n records bytes name; do
    read -r ours spread < <(both worst "$n") || exit 1
    row "$(cell "$name")" "$records" "$bytes" "$(us "$ours")" "$(percent "$spread")"
done <<<"$worst_tables"

section "One key of a live line" <<'END'
Add of a line's last byte to a live line that has the others, and Take back of it, the two together, against Read of the whole line: the ordinary
lines, the same where only half of the line is typed, which then has no reading yet, and the worst tables on the last 18, 80 and 255 bytes of their
lines. The ratio is the key's time through that of Read. The search for bytes behind the line is made where it has no reading: on the halves, and by
the tables that end in cd, for which after the last byte no bytes are left that would do.
END
head=("line or table" bytes records "key µs" spread "Read µs" ratio)
wide=(28 5 7 8 7 8 6)
heading
while read -r n bytes records name; do
    read -r ours spread < <(both live "$n" Key) || exit 1
    read -r whole _ < <(both live "$n" Read) || exit 1
    row "$(cell "$name")" "$bytes" "$records" "$(us "$ours")" "$(percent "$spread")" "$(us "$whole")" "$(ratio "$ours" "$whole")"
done <<<"$live_lines"

section "A page" <<'END'
A lap of 255 ordinary lines by Page, against reading its lines one by one, Read and then Tokens of what it wrote, into the same buffers: the same line
over and over, so that all are one run, and by turns with another of as many bytes that has one token less, so that each line is a run. The page rules
take any number of the lines' one class. The ratio is the page's time through that of its lines.
END
head=(lap "bytes a line" records "page µs" spread "lines µs" ratio)
wide=(28 12 7 8 7 8 6)
heading
while read -r n bytes records name; do
    read -r ours spread < <(both page "$n" Page) || exit 1
    read -r lines _ < <(both page "$n" Lines) || exit 1
    row "$name" "$bytes" "$records" "$(us "$ours")" "$(percent "$spread")" "$(us "$lines")" "$(ratio "$ours" "$lines")"
done < <($OUT/page)

section "Time against the line's length" <<'END'
The rule of the short ordinary line, 50 records, on lines whose remark grows.
END
series length bytes "Time against the line's length (a rule of 50 records)" "bytes of the line"

section "Time against the table's size" <<'END'
A line of 80 bytes by rules `[a-z]+( [a-z]+)?( [a-z]+)?..[ -~]+` with 0 to 27 optional words.
END
series records records "Time against the table's size (a line of 80 bytes)" "records of the table"

section Compiling <<'END'
Our compile against the peers' `regcomp` with `regfree`, of the same rule without its tags; each tagged part is in parentheses. The times are
taken as above. ns a byte: our time through the rule's bytes, which must not grow with them. A rule of over 255 records is refused by 16
after its last byte: it is the walk that is timed.
END
head=(rule bytes records "ours µs" spread "ns a byte")
wide=(28 5 8 8 7 9)
heading "${compilers[@]}"
growth=
while read -r n bytes name; do
    ask compile- "$n" "${compilers[@]}"
    read -r ours spread < <(both compile "$n") || exit 1
    each=$(awk -v x="$ours" -v n="$bytes" 'BEGIN { print 1000 * x / n }')
    for i in "${!cells[@]}"; do
        [ "${cells[i]}" = cut ] || [ "${cells[i]}" = failed ] || cells[i]="$(us "${cells[i]}") ($(ratio "${cells[i]}" "$ours"))"
    done
    [ "$bytes" -eq 64 ] && short=$each
    [ "$bytes" -eq 4096 ] && growth+="${growth:+, }$(ratio "$each" "$short") ($name)"
    row "$(cell "$name")" "$bytes" "${early[compile $n]#*$'\n'}" "$(us "$ours")" "$(percent "$spread")" "$(us "$each")" "${cells[@]}"
done < <($OUT/compile)
echo
echo "The time a byte at 4,096 bytes through that at 64: $growth."

section "The order of tokens" <<'END'
Our order of a long token list by pairs of names that it keeps, so that it is walked to its end. All 256 names stand in it. one pass: a loop in C
over the same list that only adds up the names. The times are taken as above; the ratio is ours through the pass.
END
head=("token list" pairs "ours ms" spread "ns a token" "one pass ms" ratio)
wide=(28 5 8 7 10 11 6)
heading
while read -r n tokens pairs; do
    read -r ours spread < <(both order "$n") || exit 1
    read -r pass _ < <(both order "$n" pass) || exit 1
    read -r whole each pass_whole < <(awk -v x="$ours" -v y="$pass" -v n="$tokens" 'BEGIN { print x / 1000, 1000 * x / n, y / 1000 }')
    row "$tokens tokens" "$pairs" "$(us "$whole")" "$(percent "$spread")" "$(us "$each")" "$(us "$pass_whole")" "$(ratio "$ours" "$pass")"
done < <($OUT/order)
