#!/usr/bin/env bash
# Runs the proved program on each tests/program/NAME.in, on a stack of 1 MB, and holds what it prints to NAME.out: the input
# as a file, byte by byte through a pipe, and with a read that fails after it. Then an input that cannot be read at all, and
# an output that cannot be written.
set -u
cd "$(dirname "$0")/.." || exit 1
bash programs.sh || exit 1
program=$PWD/target/bin/glaukemis
dir=$(mktemp -d)
trap 'rm -rf "$dir"' EXIT
mkfifo "$dir/pipe"
passed=0 failed=0

# The program on standard input, its output to $dir/out.
run() { (ulimit -s 1024 && exec timeout 60 "$program") >"$dir/out"; }

# The input's bytes in a pipe that stays open and is not waited for: the read after them fails. (dd sets that flag of the pipe.)
run_broken() {
    exec 3<>"$dir/pipe"
    cat "$1" >&3 && dd iflag=nonblock count=0 status=none <&3 && run <&3
    local status=$?
    exec 3>&-
    return $status
}

# What the program must print for it: the refusal of the sizes or of a line where NAME.out has one, else that of the line
# that did not come.
broken_out() {
    case $(head -c 4 "${1%.in}.out") in
    ff01 | ff0a) cat "${1%.in}.out" ;;
    *) printf 'ff0a%04x\n' "$(wc -l <"$1")" ;;
    esac
}

# count STATUS NAME: one test more, taken when its run ended well and printed what $dir/want says.
count() {
    if [ "$1" -eq 0 ] && cmp -s "$dir/out" "$dir/want"; then
        passed=$((passed + 1))
    else
        echo "$2: not what it must print"
        failed=$((failed + 1))
    fi
}

for input in tests/program/*.in; do
    cp "${input%.in}.out" "$dir/want"
    run <"$input"
    count $? "$input"
    dd bs=1 status=none <"$input" 2>/dev/null | run
    count $? "$input, byte by byte"
    broken_out "$input" >"$dir/want"
    run_broken "$input"
    count $? "$input, then a failed read"
done

echo ff0a0000 >"$dir/want"
run <tests
count $? "a directory as input"
run <&-
count $? "no input"

echo "the answer could not be written" >"$dir/want"
"$program" <crates/glaukemis/stdin >/dev/full 2>"$dir/out"
count $? "a full output"

echo "$passed passed, $failed failed"
[ "$failed" -eq 0 ] && [ "$passed" -gt 0 ]
