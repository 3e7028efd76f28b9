#!/usr/bin/env bash
# example.sh FOLDER: what the example commissioning tool, in this folder, prints for its sample input, and its exit statuses; those of the example
# that tries a rule on a line; what the one that shows the parts of a line prints; what the one that reads a lap prints for its sample and for laps that
# are refused; what the one that says which sides of a bar may be exchanged prints; and what the test console says where it cannot begin. Run from the
# repository's root.
set -uo pipefail
fail() {
    echo "example: $1"
    exit 1
}
commission=$1/commission
rules=$1/rules
diff examples/commission.expected <("$commission" <examples/commission.input) || fail "other output than examples/commission.expected"
"$commission" <examples/commission.input >/dev/null
[ $? -eq 1 ] || fail "the status is not 1 where a line is refused"
printf '12:04 lift 29\n12:04 lift 29 brake 104' | "$commission" >/dev/null || fail "the status is not 0 where every line is shown"
printf '12:04 brake 104' | "$commission" >/dev/null
[ $? -eq 1 ] || fail "the status is not 1 where a brake temperature has no lift temperature ahead of it"
"$commission" <. >/dev/null 2>&1
[ $? -eq 2 ] || fail "the status is not 2 where reading fails"
(ulimit -v 100000 && head -c 200000000 /dev/zero | "$commission" >/dev/null 2>&1)
[ $? -eq 2 ] || fail "the status is not 2 where a line is too long for the memory"
printf '12:04 lift 29' | "$commission" >/dev/full 2>/dev/null
[ $? -eq 2 ] || fail "the status is not 2 where writing fails"

# tries RULE LINE STATUS TEXT: what the second example prints, and its exit status
tries() {
    says=$("$rules" "$1" "$2")
    status=$?
    [ "$status" -eq "$3" ] && [ "$says" = "$(printf "$4")" ] || fail "the rule '$1' on '$2' gives status $status and '$says'"
}
tries '([0-9][0-9]*)#001C' 29C 0 'records: 6\n1: 29'
tries '([0-9][0-9]*)#001C' C29 1 'records: 6\nrefused 8: the start record does not spell the line'
tries '()' '' 0 'records: 1'
tries '([0-9]' 29C 1 'refused 15: the text is outside the notation, or over 4,096 bytes long'
tries '[ -~]*#002' "$(printf '7%.0s' {1..255})" 0 "records: 2\n2: $(printf '7%.0s' {1..255})"
tries '[ -~]*#002' "$(printf '7%.0s' {1..256})" 1 'records: 2\nrefused 7: the line is over 255 bytes long'
"$rules" 2>/dev/null
[ $? -eq 2 ] || fail "the status is not 2 without a rule and a line"
diff <("$1/parts") - <<'END' || fail "examples/parts.c prints something else"
record 3: offset 0, length 3: 29C
record 1: offset 0, length 2: 29
record 0: offset 0, length 1: 2
record 0: offset 1, length 1: 9
record 2: offset 2, length 1: C
END

# laps LAP STATUS TEXT: what the example that reads a lap by other rules prints, and its exit status
laps() {
    says=$(printf "$1" | "$lap" "${lap_rules[@]}")
    status=$?
    [ "$status" -eq "$2" ] && [ "$says" = "$(printf "$3")" ] || fail "the lap '$1' gives status $status and '$says'"
}
lap=$1/lap
diff examples/lap.expected <("$lap") || fail "other output than examples/lap.expected"
lap_rules=('(l#108|b#098)([0-9]*)#116|-' '(ll*)#001(b*)#002')
laps 'l1\nl1\nl2\nl\nb3\nb3' 0 'line 1: 108, run 1: l1\nline 2: 108, run 1: l1\nline 3: 108, run 2: l2\nline 4: 108, run 3: l\nline 5: 98, run 4: b3
line 6: 98, run 4: b3\n1: runs 1 to 3, lines 1 to 4\n2: run 4, lines 5 to 6'
laps 'l1\nl1\n' 0 'line 1: 108, run 1: l1\nline 2: 108, run 1: l1\n1: run 1, lines 1 to 2'
laps 'l1\nl2\n' 0 'line 1: 108, run 1: l1\nline 2: 108, run 2: l2\n1: runs 1 to 2, lines 1 to 2'
laps 'l1\n-\n' 1 'line 1: 108, run 1: l1\nline 2: no token, run 2: -\nthe lap: refused 8: the start record does not spell the line'
laps '' 1 'the lap: refused 8: the start record does not spell the line'
laps 'l1\n\nx' 1 'line 1: 108, run 1: l1\nline 2: refused 8: the start record does not spell the line'
laps "l1\\nl2\\n$(printf '7%.0s' {1..256})" 1 'line 1: 108, run 1: l1\nline 2: 108, run 2: l2\nline 3: refused 7: the line is over 255 bytes long'
laps "$(printf 'l\\n%.0s' {1..256})" 1 'the lap: refused 20: the page has over 255 lines'
lap_rules=('(l' l)
laps l 1 'the line rule: refused 15: the text is outside the notation, or over 4,096 bytes long'
lap_rules=(l "$(printf 'l%.0s' {1..129})")
laps l 1 "the lap rule: refused 16: the text's table has over 255 records"
"$lap" l 2>/dev/null
[ $? -eq 2 ] || fail "the status is not 2 with one rule alone"
"$lap" l l <. >/dev/null 2>&1
[ $? -eq 2 ] || fail "the status is not 2 where reading a lap fails"
(ulimit -v 100000 && head -c 200000000 /dev/zero | "$lap" l l >/dev/null 2>&1)
[ $? -eq 2 ] || fail "the status is not 2 where a lap is too long for the memory"
"$lap" >/dev/full 2>/dev/null
[ $? -eq 2 ] || fail "the status is not 2 where writing a lap fails"

# sorts RULE STATUS TEXT: what the example that looks at the bars of a rule prints, and its exit status
sorts() {
    says=$("$sort" "$1")
    status=$?
    [ "$status" -eq "$2" ] && [ "$says" = "$3" ] || fail "the bars of '$1' give status $status and '$says'"
}
sort=$1/sort
diff examples/sort.expected <("$sort") || fail "other output than examples/sort.expected"
sorts 'a|b|c' 0 $'a | b: may be exchanged\n(a|b) | c: may be exchanged'
sorts 'a|(b|c)' 0 $'a | (b|c): may be exchanged\nb | c: may be exchanged'
sorts 'a|b(c|cd)*|e' 0 $'a | b(c|cd)*: may be exchanged\nc | cd: may be exchanged\n(a|b(c|cd)*) | e: may be exchanged'
sorts '(brake)#001|([a-z]*)#002' 0 '(brake)#001 | [a-z]*#002: not known'
sorts 'a#0012|(a#001*)#002**' 0 'a#0012 | a#001*#002**: may be exchanged'
sorts '((ab|[#-*])#255c|\||[)-)])(\\|)' 1 'refused 15: the text is outside the notation, or over 4,096 bytes long'
sorts '((ab|[#-*])#255c|\||[)-)])(\\|\a)' 0 'ab | [#-*]: may be exchanged
(ab|[#-*])#255c | \|: may be exchanged
((ab|[#-*])#255c|\|) | \): may be exchanged
\\ | a: may be exchanged'
sorts '(lift)#001' 0 'no bar'
sorts "$(printf 'a|%.0s' {1..128})a" 1 "refused 16: the text's table has over 255 records"
[ "$("$sort" "$(printf 'a|%.0s' {1..127})a" | grep -c ' | a: not known$')" -eq 127 ] || fail "127 bars are not shown"
"$sort" a b 2>/dev/null
[ $? -eq 2 ] || fail "the status is not 2 with two rules"
"$sort" a >/dev/full 2>/dev/null
[ $? -eq 2 ] || fail "the status is not 2 where writing the bars fails"

# turns_away STATUS TEXT ARGUMENT..: the test console, without a terminal
turns_away() {
    says=$("$console" "${@:3}" 2>&1 </dev/null)
    status=$?
    [ "$status" -eq "$1" ] && [ "$says" = "$2" ] || fail "the console gives status $status and '$says'"
}
console=$1/console
turns_away 2 'usage: console RULE'
turns_away 2 'usage: console RULE' a b
turns_away 1 'console: the rule is refused: the text is outside the notation, or over 4,096 bytes long' '(a'
turns_away 1 "console: the rule is refused: the text's table has over 255 records" "$(printf 'a%.0s' {1..129})"
turns_away 2 'console: its input and output must be a terminal; tracecut cuts the lines of a file' a
echo "example: ok"
