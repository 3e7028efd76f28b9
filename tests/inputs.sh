# Sourced by the tests of a program on hard inputs: what it writes to standard output and standard error is compared with what it should write.
# Before it is sourced, $test is the test's name and $program the program's path; after the last input comes `finish`. The inputs run in an empty
# folder. Run from the repository's root after, in target/outside, the helpers `nonblock` and `faults.so` are built.
program=$(realpath "$program")
tools=$(pwd)/target/outside
dir=$(mktemp -d)
trap 'rm -rf "$dir"' EXIT
cd "$dir" || exit 1
count=0
bad=0

# same NAME: the files `got` and `err` must be `want` and `want_err`, and the program must have ended by itself, with exit status 0
same() {
    count=$((count + 1))
    if [ "$status" -eq 0 ] && cmp -s got want && cmp -s err want_err; then
        return
    fi
    bad=$((bad + 1))
    echo "$test: $1: FAILED (status $status); standard output, standard error, and what they should be:"
    for file in got err want want_err; do
        echo "-- $file"
        head -c 400 "$file"
    done
}

# expect NAME: standard input goes to the program
expect() {
    timeout 60 "$program" >got 2>err
    status=$?
    same "$1"
}

# with NAME FAULTS..: the program with faulty reads and writes
with() {
    timeout 60 env "${@:2}" LD_PRELOAD="$tools/faults.so" "$program" >got 2>err
    status=$?
    same "$1"
}

# says TEXT, complains TEXT: what the next runs must write to standard output, and to standard error
says() { printf "$1" >want; }
complains() { printf "$1" >want_err; }

# bytes COUNT [LETTER]: so many letters, a if none is given
bytes() { head -c "$1" /dev/zero | tr '\0' "${2:-a}"; }

finish() {
    if [ "$bad" -gt 0 ]; then
        echo "$test: $bad of $count inputs FAILED"
        exit 1
    fi
    echo "$test: $count inputs ok"
}
