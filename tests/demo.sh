#!/usr/bin/env bash
# Turns the rule of demo/ into a table, cuts the sample trace by it and shows what the program prints, and beside each token its text. Run from the
# repository's root.
set -euo pipefail
echo "proving and building the programs, crate by crate; the first time takes some minutes"
make --no-print-directory target/bin/tracecut target/bin/tracerules
bin=$(pwd)/target/bin
dir=$(mktemp -d)
trap 'rm -rf "$dir"' EXIT
"$bin/tracerules" <demo/rules.txt >"$dir/rules.tab"
(cd "$dir" && "$bin/tracecut") <demo/trace.txt >"$dir/report"
cat <<END
the rule, demo/rules.txt:
$(cat demo/rules.txt)

It names the time 1, the sensor 2, the value 3, free text before a semicolon 4
and a gust 5; free text and gust may be absent.

Each line of demo/trace.txt, below it what tracecut prints, for a token its
name, offset and length, and beside that the token's name and its text.
'refused 8' says that the rule does not read the line:
END
# first the trace, whose lines are kept, then the report, in which 'line N ..' begins a line's tokens
LC_ALL=C awk '
    NR == FNR { lines[FNR] = $0; next }
    $1 == "line" { line = lines[$2]; print "\n" line; print "    " $0; next }
    $1 == "table" { print "\n" $0; next }
    { printf "    %-16s%d %s\n", $0, $1, substr(line, $2 + 1, $3) }
' demo/trace.txt "$dir/report"
