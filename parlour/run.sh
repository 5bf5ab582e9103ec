#!/usr/bin/env bash
# Runs the text program, and builds what is missing first:
#
#     bash parlour/run.sh FILE
#
# or any other command of parlour (docs/PARLOUR.md).
set -euo pipefail
root=$(CDPATH='' cd -- "$(dirname -- "$0")/.." && pwd)
bash "$root/archive.sh"
cargo build --release --offline --quiet --manifest-path "$root/parlour/Cargo.toml" --target-dir "$root/parlour/target"
exec "$root/parlour/target/release/parlour" "$@"
