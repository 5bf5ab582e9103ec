#!/usr/bin/env bash
# Builds the proved programs, target/bin/glaukemis and target/bin/problems, where one is missing or older than the sources.
set -euo pipefail
cd "$(dirname "$0")"

for name in glaukemis problems; do
    program=target/bin/$name
    if [ ! -f $program ]; then
        why="$program is missing"
    elif [ -n "$(find crates -path '*/out' -prune -o -name '*.rt' -newer $program -print -quit)" ]; then
        why="$program is older than the sources"
    else
        continue
    fi
    if ! command -v rt >/dev/null; then
        echo "$why, and there is no rt to build it with; on a machine with the Rattle toolchain: bash programs.sh" >&2
        exit 1
    fi
    # It is run too, on no input, and what it prints is not looked at.
    if ! (cd crates/$name && rt run) </dev/null >/dev/null; then
        echo "$why, and rt run in crates/$name failed" >&2
        exit 1
    fi
    mkdir -p target/bin
    cp crates/$name/out/$name $program
done
