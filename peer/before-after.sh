#!/usr/bin/env bash
# before-after.sh COMMIT: the time of a build by the static library of COMMIT and of what is committed now, each with the benchmark of its own
# tree, by turns in one run. Prints for each size the least time of each in µs, and their ratio.
set -euo pipefail
root=$(git -C "$(dirname "$0")" rev-parse --show-toplevel)
dir=$(mktemp -d)
trap 'rm -rf "$dir"' EXIT

for tree in "before $1" "now HEAD"; do
    read -r name commit <<<"$tree"
    git clone -q "$root" "$dir/$name"
    git -C "$dir/$name" checkout -q "$(git -C "$root" rev-parse "$commit")"
    bash "$dir/$name/archive.sh" >"$dir/log" 2>&1 || { cat "$dir/log"; exit 1; }
    (cd "$dir/$name/peer" && cargo build --release --offline --quiet --features bench --bin bench)
done

for _ in 1 2 3 4 5; do
    for name in before now; do
        "$dir/$name/peer/target/release/bench" | sed -n "s/^\([0-9x]*\): .*, C library \([0-9.]*\),.*/$name \1 \2/p"
    done
done | awk '
    !(($1, $2) in least) || $3 < least[$1, $2] { least[$1, $2] = $3 }
    !($2 in seen) { seen[$2] = 1; sizes[++count] = $2 }
    END {
        print "| size | before | now | now / before |"
        print "|---|---|---|---|"
        for (i = 1; i <= count; i++) {
            s = sizes[i]
            printf "| %s | %.2f | %.2f | %.2f |\n", s, least["before", s], least["now", s], least["now", s] / least["before", s]
        }
    }'
