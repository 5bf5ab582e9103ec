#!/usr/bin/env bash
# The independent second program: its own tests, the static library held to it on COUNT random problems, over bytes and over
# numbers, COUNT random calls of glaukemis_weigh, as many of glaukemis_gauge and many fixed ones, the proved program held to it,
# and the known problems (R10.1 to R10.13) in the proved program `problems` and in the peer.
# COUNT is 20,000, or the first argument.
set -u
cd "$(dirname "$0")/../peer" || exit 1
bash ../archive.sh && bash ../programs.sh || exit 1
count=${1:-20000}
folder=$(mktemp -d)
log=$folder/log
trap 'rm -rf "$folder"' EXIT
passed=0 failed=0

# a command whose last line that says so counts
counted() {
    "$@" 2>&1 | tee "$log"
    local status=${PIPESTATUS[0]} line
    line=$(grep -E '^(test result: .*)?[0-9]+ passed[,;] [0-9]+ failed' "$log" | sed 's/^test result: [a-zA-Z]*\. //')
    local p=0 f=0
    while read -r n _ k _; do
        p=$((p + n)) f=$((f + k))
    done <<<"$line"
    if [ "$status" -ne 0 ] && [ "$f" -eq 0 ]; then f=1; fi
    if [ "$p" -eq 0 ]; then f=$((f + 1)); fi
    passed=$((passed + p)) failed=$((failed + f))
}

# what a file has of a known problem: its number's line, and those before the next line with a number alone
problem() {
    awk -v number="$1" '/^[0-9]+$/ { on = $0 == number } on' "$2"
}

# the known problems as both programs print them: the same lines for each, and exactly 13 of them
problems() {
    local passed=0 failed=0 number name
    cd "$folder" || return 1
    for number in {1..13}; do
        problem "$number" proved >proved.part
        problem "$number" peer >peer.part
        if [ "$(wc -l <proved.part)" -gt 1 ] && diff proved.part peer.part; then
            passed=$((passed + 1))
        else
            echo "known problem $number: the proved program (<) and the peer (>) do not say the same"
            failed=$((failed + 1))
        fi
    done
    for name in proved peer; do
        if [ "$(head -n 1 $name)" != 1 ] || [ "$(grep -xE '[0-9]+' $name)" != "$(seq 13)" ]; then
            echo "known problems, $name: not 13 parts"
            failed=$((failed + 1))
        fi
    done
    echo "$passed passed, $failed failed"
    [ "$failed" -eq 0 ]
}

counted cargo test --offline --quiet
counted cargo run --release --offline --quiet --features bench --bin compare -- "$count"
counted cargo run --release --offline --quiet --bin compare_program -- "$PWD/../target/bin/glaukemis" 2000
../target/bin/problems >"$folder/proved" || failed=$((failed + 1))
cargo run --release --offline --quiet --bin problems >"$folder/peer" || failed=$((failed + 1))
counted problems
echo "$passed passed, $failed failed"
[ "$failed" -eq 0 ]
