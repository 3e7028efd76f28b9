#!/usr/bin/env bash
# tracerules on hard inputs: what it writes to standard output and standard error is compared with what the notation and man/tracerules.1.in say. Run
# from the repository's root after the programs and, in target/outside, the helpers `nonblock` and `faults.so` are built.
set -uo pipefail
tracecut=$(pwd)/target/bin/tracecut
test=rules
program=${PROGRAM:-target/bin/tracerules}
. tests/inputs.sh

# text TEXT: the text and byte 10 go to the program
text() { expect "$1" < <(printf '%s\n' "$1"); }
# refuses NUMBER WORDS: the next runs write no table
refuses() {
    says ''
    complains "tracerules: refused $1: $2\n"
}
# outside OFFSET TEXT: a text, with byte 10 behind it, that stops being readable at an offset
outside() {
    refuses 15 "outside the notation at offset $1"
    text "$2"
}
taken() {
    says "$1"
    complains ''
}

a='\x02\x61\x61\x00'
ab="$a"'\x02\x62\x62\x00\x04\x00\x01\x00'

# the final byte 10
t1='\x02\x61\x61\x01\x02\x61\x61\x00\x02\x62\x62\x00\x04\x01\x02\x02\x03\x00\x03\x00\x02\x62\x62\x00\x02\x63\x63\x00\x04\x05\x06\x03\x03\x04\x07\x00\x05\x08\x00\x00'
taken "$t1"
expect "a final byte 10" < <(printf '(a#001|(ab)#002|(bc)#003)*\n')
expect "no final byte 10" < <(printf '(a#001|(ab)#002|(bc)#003)*')
cp got rules.tab
printf 'abc\n' | "$tracecut" >got 2>err
status=$?
says 'line 1 ok 2\n1 0 1\n3 1 2\n'
same "the table cuts a line"
taken "$a"'\x02\x0a\x0a\x00\x04\x00\x01\x00'
expect "two final bytes 10" < <(printf 'a\n\n')
taken "$a"'\x02\x0a\x0a\x00\x04\x00\x01\x00\x02\x0a\x0a\x00\x04\x02\x03\x00'
expect "three final bytes 10" < <(printf 'a\n\n\n')
taken '\x02\x0a\x0a\x00'
expect "two bytes 10 alone" < <(printf '\n\n')
taken "$a"'\x02\x0d\x0d\x00\x04\x00\x01\x00'
expect "a final byte 13 before it" < <(printf 'a\r\n')
refuses 15 'outside the notation at offset 0'
expect "empty input" </dev/null
expect "one byte 10" < <(printf '\n')

# the forms of the notation
taken '\x01\x00\x00\x00'
text '()'
taken '\x01\x00\x00\x00\x05\x00\x00\x07'
text '()*#007'
taken '\x02\x30\x39\xff'
text '[0-9]#255'
taken '\x02\x5b\x5d\x00'
text '[[-]]'
taken '\x02\x7c\x7c\x00'
text '\|'
taken '\x02\x00\xff\x00\x02\x00\x00\x00\x04\x00\x01\x00\x02\xff\xff\x00\x04\x02\x03\x00'
expect "NUL and high bytes" < <(printf '[\0-\377]\0\377\n')
taken "$a"'\x02\x62\x62\x00\x04\x00\x01\x00\x02\x63\x63\x00\x03\x02\x03\x00'
text 'ab|c'
taken '\x02\x61\x61\x01\x02\x30\x30\x00\x04\x00\x01\x00'
text 'a#0010'

# the offset: at the start, in the middle, at the end, and of the first byte of a word that cannot be read
outside 0 '*a'
outside 0 '|a'
outside 0 ')'
outside 0 ']'
outside 0 '#001'
outside 0 '[b-a]'
outside 1 '(|a)'
outside 1 'a[b-'
outside 1 'a\'
outside 1 'a#01b'
outside 1 'a#000'
outside 1 'a#256'
outside 2 'a|'
outside 2 'a||b'
outside 2 'ab)c'
outside 3 '(ab'
outside 3 'ab|*c'
outside 5 'a#001#002'
outside 7 '(a#001)#002'
outside 12 'abcdefghijkl)mno'
refuses 15 'outside the notation at offset 2'
expect "the end of a text without byte 10" < <(printf 'a|')
refuses 15 'outside the notation at offset 3'
expect "the end of a text whose last byte is 10" < <(printf '(a\n\n')
refuses 15 'outside the notation at offset 4'
expect "bytes 10 inside a text" < <(printf 'a|\n\n)\n')
refuses 15 'outside the notation at offset 4095'
expect "offset 4,095" < <(bytes 4095; printf ')\n')
refuses 15 'outside the notation at offset 4096'
expect "offset 4,096" < <(bytes 4096 '('; printf '\n')

# the limit: 4,096 bytes, three records in many parentheses
nested() { bytes "$1" '('; printf ab; bytes "$1" ')'; }
taken "$ab"
expect "4,096 bytes" < <(nested 2047)
expect "4,096 bytes and byte 10" < <(nested 2047; printf '\n')
refuses 15 'over 4096 bytes'
expect "4,096 bytes and two bytes 10" < <(nested 2047; printf '\n\n')
expect "4,096 bytes and another byte" < <(nested 2047; printf c)
expect "4,096 bytes, byte 10 and another byte" < <(nested 2047; printf '\nc')
expect "4,096 bytes, byte 10 and many bytes" < <(nested 2047; printf '\n'; bytes 1000000)
expect "4,097 bytes" < <(bytes 2048 '('; printf a; bytes 2048 ')')
expect "4,097 bytes and byte 10" < <(bytes 2048 '('; printf a; bytes 2048 ')'; printf '\n')
expect "4,098 bytes" < <(nested 2048)
expect "4,098 bytes and byte 10" < <(nested 2048; printf '\n')
expect "a megabyte" < <(bytes 1000000)
expect "a megabyte of bytes 10" < <(head -c 1000000 /dev/zero | tr '\0' '\n')
expect "a megabyte that cannot be read" < <(bytes 1000000 ')')

# the records: a row of n letters has 2 n - 1
row() { awk -v n="$1" 'BEGIN { printf "\\x02\\x61\\x61\\x00"; for (k = 2; k < 2 * n; k += 2) printf "\\x02\\x61\\x61\\x00\\x04\\x%02x\\x%02x\\x00", k - 2, k - 1 }'; }
taken "$(row 128)"
expect "255 records" < <(bytes 128; printf '\n')
taken "$(row 127)"'\x05\xfc\x00\x00\x05\xfd\x00\x09'
expect "255 records, the last with a tag" < <(bytes 127 | sed 's/.*/(&)**#009/')
refuses 16 'more than 255 records'
expect "256 records" < <(bytes 128; printf '*\n')
expect "257 records" < <(bytes 129; printf '\n')
expect "8,191 records" < <(bytes 4096)
refuses 15 'outside the notation at offset 300'
expect "15 comes before 16" < <(bytes 300; printf ')\n')

# reads
says ''
complains 'tracerules: reading standard input failed: Is a directory\n'
expect "a directory as standard input" <.
complains 'tracerules: reading standard input failed: Bad file descriptor\n'
timeout 60 "$program" <&- >got 2>err
status=$?
same "a closed standard input"
complains 'tracerules: reading standard input failed: Input/output error\n'
with "a first read that fails" INPUT_FAULTS=e < <(printf 'ab\n')
with "a read that fails inside the text" INPUT_FAULTS=se < <(printf 'ab\n')
with "a read that fails behind a whole text" INPUT_FAULTS=sse < <(printf 'ab')
with "a read that fails at the input's end" INPUT_FAULTS=ssse < <(printf 'ab\n')
with "a read that fails after interruptions" INPUT_FAULTS=isise < <(printf 'ab\n')
taken "$ab"
with "byte by byte" INPUT_FAULTS=sss < <(printf 'ab\n')
with "reads that are interrupted" INPUT_FAULTS=iisisiisi < <(printf 'ab\n')
with "writes that are interrupted or take one byte" OUTPUT_FAULTS=issisi < <(printf 'ab\n')
taken "$(row 128)"
with "255 records byte by byte" INPUT_FAULTS="$(bytes 129 s)" OUTPUT_FAULTS="$(bytes 1020 s)" < <(bytes 128; printf '\n')
taken "$ab"
timeout 60 "$tools/nonblock" 0 "$program" >got 2>err < <(for byte in a b '\n'; do sleep 0.1; printf "$byte"; done)
status=$?
same "slowly on an input that does not block"
refuses 15 'outside the notation at offset 2'
timeout 60 "$tools/nonblock" 0 "$program" >got 2>err < <(printf '(a'; sleep 0.2)
status=$?
same "the end of an input that does not block"

# standard output
says ''
complains 'tracerules: writing failed: Input/output error\n'
with "a write that fails" OUTPUT_FAULTS=e < <(printf 'ab\n')
complains 'tracerules: writing failed: Bad file descriptor\n'
timeout 60 "$program" >&- 2>err < <(printf 'ab\n')
status=$?
same "a closed standard output"
complains 'tracerules: writing failed: No space left on device\n'
timeout 60 "$program" >/dev/full 2>err < <(printf 'ab\n')
status=$?
same "a full standard output"
refuses 15 'outside the notation at offset 0'
timeout 60 "$program" >/dev/full 2>err < <(printf '\n')
status=$?
same "a refused text and a full standard output"
timeout 60 "$program" >&- 2>err < <(printf '\n')
status=$?
same "a refused text and a closed standard output"
says ''
complains ''
: >err
timeout 60 "$program" >got 2>&- < <(printf '\n')
status=$?
same "a refused text and a closed standard error"
: >got
# a program that Rattle builds ignores the signal SIGPIPE from its start on, so the write fails, whatever the signal did before
complains 'tracerules: writing failed: Broken pipe\n'
{ sleep 0.3; printf 'ab\n'; } | timeout 60 env --default-signal=PIPE "$program" 2>err | true
status=${PIPESTATUS[1]}
same "a standard output that nobody reads"
{ sleep 0.3; printf 'ab\n'; } | timeout 60 env --ignore-signal=PIPE "$program" 2>err | true
status=${PIPESTATUS[1]}
same "a standard output that nobody reads, with SIGPIPE ignored"
# a pipe that is full: its 65,536 bytes, then the table
taken "$ab"
{ head -c 65536 /dev/zero; timeout 60 "$tools/nonblock" 1 "$program" 2>err < <(printf 'ab\n'); echo $? >status; } | { sleep 0.3; tail -c +65537; } >got
status=$(cat status)
same "a full standard output that does not block, and a slow reader"

finish
