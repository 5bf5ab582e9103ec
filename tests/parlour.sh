#!/usr/bin/env bash
# Builds the program parlour over the static library, runs its own tests, and holds what it prints to
# examples/pulsator.parlour.out and to the transcripts of tests/parlour. In a transcript a line `$ COMMAND` is followed by what the
# command prints on standard output, by what it prints on standard error with `! ` before each line, and by `= ` and the
# exit status. The commands run in tests/parlour, on a stack of 1 MB.
# `tests/parlour.sh store` writes the transcripts and the example's output anew, to be read in the difference.
set -u
cd "$(dirname "$0")/.." || exit 1
bash archive.sh && bash programs.sh || exit 1
dir=$(mktemp -d)
trap 'rm -rf "$dir"' EXIT
passed=0 failed=0

cargo build --release --offline --quiet --manifest-path parlour/Cargo.toml --target-dir parlour/target || failed=$((failed + 1))
mkdir "$dir/bin"
cp parlour/target/release/parlour target/bin/glaukemis "$dir/bin" || failed=$((failed + 1))

# What a command prints, as a transcript has it.
told() {
    (cd tests/parlour && ulimit -s 1024 && PATH=$dir/bin:$PATH exec timeout 60 bash -o pipefail -c "$1") \
        >"$dir/out" 2>"$dir/err" </dev/null
    local status=$?
    echo "\$ $1"
    cat "$dir/out"
    sed 's/^/! /' "$dir/err"
    echo "= $status"
}

# Runs all commands of a transcript.
retold() {
    grep '^\$ ' "$1" | while IFS= read -r line; do
        told "${line#\$ }"
    done
}

# The part of a transcript that belongs to its command of that number.
part() { awk -v number="$2" '/^\$ / { count++ } count == number' "$1"; }

example() { bash parlour/run.sh examples/pulsator.parlour; }

if [ "${1:-}" = store ]; then
    example >examples/pulsator.parlour.out
    for transcript in tests/parlour/*.transcript; do
        retold "$transcript" >"$dir/told" && cp "$dir/told" "$transcript"
    done
    exit
fi

# count WORDS: one test more, taken when the two files are the same.
count() {
    if diff "$dir/want" "$dir/got"; then
        passed=$((passed + 1))
    else
        echo "$1: what it must print (<) and what it prints (>) are not the same"
        failed=$((failed + 1))
    fi
}

cp examples/pulsator.parlour.out "$dir/want"
example >"$dir/got"
count examples/pulsator.parlour

for transcript in tests/parlour/*.transcript; do
    retold "$transcript" >"$dir/told"
    commands=$(grep -c '^\$ ' "$transcript")
    for number in $(seq "$commands"); do
        part "$transcript" "$number" >"$dir/want"
        part "$dir/told" "$number" >"$dir/got"
        count "$transcript, command $number"
    done
    # Every line of it belongs to a command.
    if [ "$commands" -eq 0 ] || [ "$(head -c 2 "$transcript")" != '$ ' ]; then
        echo "$transcript: does not begin with a command"
        failed=$((failed + 1))
    fi
done

# Every stored file is in a transcript.
for file in tests/parlour/*.parlour; do
    if ! grep -q "^\\$ .*${file#tests/parlour/}" tests/parlour/*.transcript; then
        echo "$file: in no transcript"
        failed=$((failed + 1))
    fi
done

cargo test --release --offline --quiet --manifest-path parlour/Cargo.toml --target-dir parlour/target 2>&1 | tee "$dir/log"
status=${PIPESTATUS[0]}
while read -r _ _ _ p _ f _; do
    passed=$((passed + p)) failed=$((failed + f))
done < <(grep '^test result: ' "$dir/log")
if [ "$status" -ne 0 ] || ! grep -q '^test result: ok' "$dir/log"; then failed=$((failed + 1)); fi

echo "$passed passed, $failed failed"
[ "$failed" -eq 0 ] && [ "$passed" -gt 0 ]
