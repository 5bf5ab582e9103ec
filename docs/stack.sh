#!/usr/bin/env bash
# The stack of the C calls, as docs/DECISIONS.md and include/glaukemis.h tell it: builds the static library of this checkout and makes each call
# on a painted stack (peer/stack.c). The problems are a ladder, whose deepest rows take 0, 1, 2 and so on repetitions of (A), and the stored ones
# with the deepest rows that are known; the second program counts the repetitions (peer/src/bin/depth.rs). Nothing is asserted of a size.
set -euo pipefail
cd "$(dirname "$0")/.."
folder=$(mktemp -d)
trap 'rm -rf "$folder"' EXIT

bash archive.sh >"$folder/log" 2>&1 || { cat "$folder/log"; exit 1; }
# Linked with -z now, or the first call of a C function on the painted stack would be its search by the loader.
gcc -std=gnu11 -O2 -Wall -Wextra -Werror -Iinclude peer/stack.c target/staticlib/libbench.a -Wl,-z,now -o "$folder/stack"
cargo run --release --offline --quiet --manifest-path peer/Cargo.toml --bin depth -- tests/program/taken-deep*-row*.in >"$folder/problems"

echo "Commit $(git rev-parse --short HEAD)$(git diff --quiet HEAD || echo ', with changes'), $(uname -m), $(rt version)."
echo "In bytes, less what an empty function takes with the same arguments. Rows count from 0."
echo
"$folder/stack" <"$folder/problems"
