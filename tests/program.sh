#!/usr/bin/env bash
# The program on hard inputs: what it writes to standard output and standard error is compared with what document 01 and docs/DECISIONS.md say. Run from
# the repository's root after the program and, in target/outside, the helpers `nonblock` and `faults.so` are built.
set -uo pipefail
rules=$(pwd)/target/bin/tracerules
demo=$(pwd)/demo
test=program
program=${PROGRAM:-target/bin/tracecut}
. tests/inputs.sh

t1='\x02\x61\x61\x01\x02\x61\x61\x00\x02\x62\x62\x00\x04\x01\x02\x02\x02\x62\x62\x00\x02\x63\x63\x00\x04\x04\x05\x03\x03\x00\x03\x00\x03\x07\x06\x00\x05\x08\x00\x00'
printf "$t1" >rules.tab
complains ''

says 'line 1 ok 2\n1 0 1\n3 1 2\nline 2 ok 0\nline 3 refused 8\n'
expect "the example of document 01" < <(printf 'abc\n\nb\n')
expect "a last line without byte 10" < <(printf 'abc\n\nb')

says ''
expect "empty input" </dev/null
says 'line 1 ok 0\n'
expect "one empty line" < <(printf '\n')

says 'line 1 refused 7\nline 2 ok 1\n1 0 1\n'
expect "a line of 10 MB, and the next one" < <(bytes 10000000; printf '\na\n')
says 'line 1 refused 10\n'
expect "255 bytes: the work area is too short" < <(bytes 255)
says 'line 1 refused 7\n'
expect "256 bytes" < <(bytes 256)
says 'line 1 refused 8\nline 2 refused 8\nline 3 ok 1\n1 0 1\n'
expect "NUL and high bytes" < <(printf '\0\n\377\200\na')

# a table that spells any line, (0..255)*, tagged 9: the work area is enough for 254 bytes
printf '\x02\x00\xff\x00\x05\x00\x00\x09' >rules.tab
says 'line 1 ok 1\n9 0 254\nline 2 ok 1\n9 0 4\nline 3 ok 0\nline 4 refused 10\nline 5 refused 7\n'
expect "254, 4, 0, 255 and 256 bytes" < <(head -c 254 /dev/zero; printf '\n\0\001\377x\n\n'; head -c 255 /dev/zero; printf '\n'; head -c 256 /dev/zero)

# every byte value but 10 in one line, which is one byte too long for the work area; then in two lines that byte 10 alone parts
every() { awk -v cut="$1" 'BEGIN { for (i = 0; i < 256; i++) if (i != 10) printf "%s\\x%02x", (i == cut ? "\\n" : ""), i }'; }
says 'line 1 refused 10\nline 2 ok 1\n9 0 253\nline 3 ok 1\n9 0 2\nline 4 ok 1\n9 0 3\n'
expect "a line with every byte value but 10" < <(printf "$(every none)\n$(every 254)\n\t\r\v")

says 'table refused 1\n'
rm rules.tab
expect "rules.tab missing" < <(printf 'abc\n')
: >rules.tab
expect "rules.tab empty" < <(printf 'abc\n')
for size in 1021 1022 1023 1024 1025 1028 4096 100000; do
    head -c $size /dev/zero >rules.tab
    expect "rules.tab of $size bytes" < <(printf 'abc\n')
done
head -c 1020 /dev/zero >rules.tab
says 'line 1 refused 8\n'
expect "rules.tab of 1,020 bytes" < <(printf 'a\n')
printf '\x07\x00\x00\x00' >rules.tab
says 'table refused 2\n'
expect "a kind above 6" < <(printf 'a\n')

# the demo's 41 records: the work area is enough for 55 bytes, as README.md says
"$rules" <"$demo/rules.txt" >rules.tab
says 'line 1 ok 3\n1 0 5\n2 6 4\n3 11 44\nline 2 refused 10\n'
expect "the demo's table, lines of 55 and 56 bytes" < <(printf '12:04 lift '; bytes 44 7; printf '\n12:04 lift '; bytes 45 7)
says 'line 1 ok 4\n4 0 6\n1 8 5\n2 14 4\n3 19 2\nline 2 refused 8\nline 3 refused 8\nline 4 refused 8\n'
expect "the demo's table, free text up to a semicolon" < <(printf 'a:<~b#; 12:04 lift 29\na;b; 12:04 lift 29\nab 12:04 lift 29\na\0\377; 12:04 lift 29\n')
says 'line 1 ok 4\n1 0 5\n2 6 4\n3 11 2\n5 13 3\nline 2 ok 3\n1 0 5\n2 6 4\n3 11 1\nline 3 ok 3\n1 2 5\n2 8 4\n3 13 2\n'
expect "the demo's table, a gust, none, and free text that is empty" < <(printf '12:05 wind 12g31\n12:06 wind 9\n; 12:04 lift 29\n')

# an Other: every byte but a semicolon, any number of times, as token 4, and a semicolon
printf '\x06\x3b\x3b\x00\x05\x00\x00\x04\x02\x3b\x3b\x00\x04\x01\x02\x00' >rules.tab
says 'line 1 ok 1\n4 0 6\nline 2 refused 8\n'
expect "any byte but a semicolon" < <(printf 'a\0\377 b#;\na;b;\n')

# case J: a tagged Empty
printf '\x01\x00\x00\x07' >rules.tab
says 'line 1 ok 0\n'
expect "an empty line by a tagged Empty" < <(printf '\n')

# the last record is the start: a, then b, each tagged with its number plus 1
printf '\x02\x61\x61\x01\x02\x62\x62\x02' >rules.tab
says 'line 1 refused 8\nline 2 ok 1\n2 0 1\n'
expect "the start is the last record" < <(printf 'a\nb\n')

# reads that fail
printf "$t1" >rules.tab
says ''
complains 'tracecut: reading failed in line 1: Is a directory\n'
expect "a directory as standard input" <.
complains 'tracecut: reading failed in line 1: Bad file descriptor\n'
timeout 60 "$program" <&- >got 2>err
status=$?
same "a closed standard input"

says 'line 1 ok 2\n1 0 1\n3 1 2\n'
complains 'tracecut: reading failed in line 2: Input/output error\n'
with "a read that fails inside a line" INPUT_FAULTS=ssssse < <(printf 'abc\nabc\n')
complains ''
says 'line 1 ok 2\n1 0 1\n3 1 2\nline 2 ok 2\n1 0 1\n3 1 2\n'
with "reads that are interrupted" INPUT_FAULTS=iissiisssis < <(printf 'abc\nabc\n')
with "a table that comes in pieces, with an interruption" FILE_FAULTS=isssii < <(printf 'abc\nabc\n')
with "writes that are interrupted or take one byte" OUTPUT_FAULTS=issisi < <(printf 'abc\nabc\n')
says 'table refused 1\n'
complains 'tracecut: reading rules.tab failed: Input/output error\n'
with "a table whose reading fails after a table that would pass" FILE_FAULTS=sssse < <(printf 'a\n')
says ''
complains 'tracecut: writing failed: Input/output error\n'
with "a write that fails" OUTPUT_FAULTS=e < <(printf 'abc\nabc\n')

mkdir dir dir/rules.tab
says 'table refused 1\n'
complains 'tracecut: reading rules.tab failed: Is a directory\n'
(cd dir && timeout 60 "$program" >../got 2>../err) < <(printf 'abc\n')
status=$?
same "a directory as rules.tab"

mkdir loop
ln -s rules.tab loop/rules.tab
complains 'tracecut: opening rules.tab failed: Too many levels of symbolic links\n'
(cd loop && timeout 60 "$program" >../got 2>../err) < <(printf 'abc\n')
status=$?
same "a rules.tab that cannot be opened"

# a descriptor that would block is waited for
complains ''
says 'line 1 ok 2\n1 0 1\n3 1 2\nline 2 ok 2\n1 0 1\n3 1 2\n'
{ printf 'abc\nab'; sleep 0.3; printf 'c\n'; } | timeout 60 "$tools/nonblock" 0 "$program" >got 2>err
status=$?
same "a line in two pieces on an input that does not block"

# standard output
says ''
complains 'tracecut: writing failed: No space left on device\n'
timeout 60 "$program" >/dev/full 2>err < <(printf 'abc\nabc\n')
status=$?
: >got
same "a full standard output"
complains 'tracecut: writing failed: Bad file descriptor\n'
timeout 60 "$program" >&- 2>err < <(printf 'abc\nabc\n')
status=$?
same "a closed standard output"

# a program that Rattle builds ignores the signal SIGPIPE from its start on, so the write fails, whatever the signal did before
head -n 100000 < <(yes abc 2>&1) >unread
complains 'tracecut: writing failed: Broken pipe\n'
timeout 60 env --default-signal=PIPE "$program" <unread 2>err | true
status=${PIPESTATUS[0]}
same "a standard output that nobody reads"

timeout 60 env --ignore-signal=PIPE "$program" <unread 2>err | true
status=${PIPESTATUS[0]}
same "a standard output that nobody reads, with SIGPIPE ignored"
complains ''

# many lines, so that the output is written more than once, each report whole and once, and nothing is lost at the end; the first line is
# shorter, so that blocks of the input end inside lines
awk 'BEGIN { print "a"; for (i = 1; i < 200000; i++) print "abc" }' >lines
awk 'NR == 1 { print "line 1 ok 1"; print "1 0 1"; next } { print "line " NR " ok 2"; print "1 0 1"; print "3 1 2" }' lines >want
expect "200,000 lines" <lines
timeout 60 "$tools/nonblock" 1 "$program" <lines 2>err | { sleep 0.3; cat; } >got
status=${PIPESTATUS[0]}
same "200,000 lines to an output that does not block, and a slow reader"

finish
