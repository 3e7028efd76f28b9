#!/usr/bin/env bash
# Every example of docs/GUIDE.md: the page is written anew with what the programs say, and must be the same. Run from the repository's root after the
# programs are built.
#
# Each listing of the page has examples. One that begins with '$ ' is a session, whose commands are run one after the other in an empty folder. Any
# other has lines 'rule: TEXT' and 'line: LINE', and answers that two spaces indent: below a text that is refused what tracerules says, and below a
# line its tokens, 'NAME: TEXT', or 'no token' or 'refused NUMBER'. Several 'rule:' lines together are one text with new lines in it.
set -euo pipefail
export LC_ALL=C # offsets count bytes
page=docs/GUIDE.md
least=50
bin=$(pwd)/target/bin
dir=$(mktemp -d)
trap 'rm -rf "$dir"' EXIT
fail() {
    echo "guide: $1" >&2
    exit 1
}

# compile TEXT: makes rules.tab, and shows what is said of a text that is refused, which has no table
compile() {
    (cd "$dir" && "$bin/tracerules" >rules.tab 2>says || true) <<<"$1"
    sed 's/^/  /' "$dir/says"
    if [ -s "$dir/says" ] && [ -s "$dir/rules.tab" ]; then
        fail "a refused text has a table: $1"
    fi
}

# cut LINE: shows its tokens or its refusal
cut() {
    (cd "$dir" && "$bin/tracecut") <<<"$1" | while read -r first second third fourth; do
        case "$first $third" in
        'line ok') [ "$fourth" != 0 ] || echo '  no token' ;;
        'line refused') echo "  refused $fourth" ;;
        'table '*) echo "  table $second $third" ;;
        *) echo "  $first: ${1:second:third}" ;;
        esac
    done
}

# run COMMAND: shows what it writes
run() { (cd "$dir/session" && PATH=$bin:$PATH bash -c "$1" 2>&1 </dev/null || true); }

# behind: what the line before is: prose, the listing's first fence, or a rule, a line, an answer or a session's line of the listing
count=0
number=0
behind=prose
while IFS= read -r line; do
    number=$((number + 1))
    if [ $behind = rule ] && [[ $line != 'rule: '* ]]; then
        compile "$text"
        if [ -s "$dir/says" ]; then
            count=$((count + 1))
        elif [[ $line != 'line: '* ]]; then
            fail "$page, line $number: a rule without a line"
        fi
    fi
    case "$behind $line" in
    'prose ```') behind=fence ;;
    'prose ```'*) fail "$page, line $number: a listing that is no example" ;;
    'prose '*) ;;
    'fence ```') fail "$page, line $number: an empty listing" ;;
    *' ```') behind=prose ;;
    'fence $ '* | 'session $ '*)
        [ $behind = session ] || { rm -rf "$dir/session" && mkdir "$dir/session"; }
        behind=session
        count=$((count + 1))
        printf '%s\n' "$line"
        run "${line#\$ }"
        continue
        ;;
    'session '*) continue ;;
    'rule rule: '*) text+=$'\n'${line#rule: } ;;
    'fence rule: '* | 'answer rule: '*)
        behind=rule
        text=${line#rule: }
        ;;
    'rule line: '* | 'answer line: '*)
        behind=line
        count=$((count + 1))
        printf '%s\n' "$line"
        cut "${line#line: }"
        continue
        ;;
    'rule   '* | 'line   '* | 'answer   '*)
        behind=answer
        continue
        ;;
    *) fail "$page, line $number: neither a rule, a line nor an answer in its place" ;;
    esac
    printf '%s\n' "$line"
done <"$page" >"$dir/anew"
[ $behind = prose ] || fail "$page: a listing without an end"
diff "$page" "$dir/anew" || fail "the programs say something else (>) than $page (<)"
[ $count -ge $least ] || fail "$count examples in $page, and $least are the least"
echo "guide: $count examples ok"
