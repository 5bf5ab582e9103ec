#!/usr/bin/env bash
# The figures of docs/FIGURES.md, of what is committed: for each crate its lines (blank ones left out), its functions, its must-fail edits and
# the time of its check from nothing, one crate at a time; and the gate's time. All of it is measured in a new clone, which is removed after.
# With --no-gate the gate is left out.
set -euo pipefail
root=$(git -C "$(dirname "$0")" rev-parse --show-toplevel)
clone=$(mktemp -d)
trap 'rm -rf "$clone"' EXIT
git clone -q "$root" "$clone"
cd "$clone"

# lines DIR PATTERN: the lines that are not blank
lines() {
    [ -d "$1" ] || { echo 0; return; }
    find "$1" -path '*/out' -prune -o -name "$2" -exec cat {} + | grep -c '[^[:space:]]' || true
}

# minutes SECONDS
minutes() { echo "$(($1 / 60)) min $(($1 % 60)) s"; }

# Each crate's proof and nothing beside it: without the edits, one crate after the other. A crate's lines end with 'rt: NAME proved', and it took
# the time since the crate before it ended.
rm -rf crates/*/must-fail
date +%s%N >measured
RT_JOBS=1 rt ci --anew </dev/null 2>&1 | while IFS= read -r line; do
    case $line in
    '== '* | 'rt: '*' proved' | 'logic=proved functions='*) echo "$(date +%s%N) $line" ;;
    *) echo "$line" >>log ;;
    esac
done >>measured
tail -n 1 log | grep -q ' passed, 0 failed' || { cat log; exit 1; }
git checkout -q -- crates

# of CRATE: its functions, and its time in tenths of a second
of() {
    awk -v crate="$1" '
        NR == 1 { ended = $1 }
        $2 == "==" { name = $3 }
        name == crate && $2 == "logic=proved" { functions = substr($3, 11) }
        $2 == "rt:" { if ($3 == crate) print functions + 0, int(($1 - ended) / 100000000); ended = $1 }' measured
}

echo "Commit $(git rev-parse --short HEAD), $(rt version), $(nproc) processors ($(sed -n 's/^model name[^:]*: //p' /proc/cpuinfo | head -n 1))."
echo
echo '| crate | code | definitions | proofs | functions | edits | check, s |'
echo '|---|---|---|---|---|---|---|'
all=(0 0 0 0 0 0)
for crate in $(sed -nE 's/^([a-z][a-z_]*)( staticlib)?:.*/\1/p' crates.txt); do
    dir=crates/$crate
    read -r functions tenths < <(of "$crate")
    edits=$(find "$dir" -path '*/must-fail/*.edit' | wc -l)
    row=("$(lines "$dir/src" '*.rt')" "$(lines "$dir/specs" '*.antt')" "$(lines "$dir/proofs" '*.antt')" "$functions" "$edits" "$tenths")
    echo "| $crate | ${row[0]} | ${row[1]} | ${row[2]} | ${row[3]} | ${row[4]} | $((tenths / 10)).$((tenths % 10)) |"
    for i in 0 1 2 3 4 5; do all[i]=$((all[i] + row[i])); done
done
echo "| all | ${all[0]} | ${all[1]} | ${all[2]} | ${all[3]} | ${all[4]} | $((all[5] / 10)).$((all[5] % 10)) |"
echo
echo "Outside the crates, lines that are not blank: peer $(lines peer/src '*.rs') of Rust, $(lines peer '*.c') of C; parlour $(($(lines parlour/src '*.rs') + $(lines parlour/tests '*.rs'))) of Rust; example, header and their tests $(($(lines examples '*.c') + $(lines include '*.h') + $(lines tests '*.c'))) of C; scripts $(($(cat install.sh archive.sh programs.sh .ci/run | grep -c '[^[:space:]]') + $(lines parlour '*.sh') + $(lines tests '*.sh') + $(lines peer '*.sh') + $(lines docs '*.sh'))) of bash."
[ "${1:-}" = --no-gate ] && exit
rm measured log
begun=$(date +%s)
result=$(rt ci --anew 2>&1 </dev/null | tail -n 1) || true
echo
echo "All proofs and must-fail edits from nothing, on all processors: $(minutes $(($(date +%s) - begun))), \`$result\`."
begun=$(date +%s)
result=$(bash .ci/run 2>&1 | tail -n 1) || true
echo
echo "The gate after it, which does not prove again what did not change: $(minutes $(($(date +%s) - begun))), \`$result\`."
