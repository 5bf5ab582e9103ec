#!/usr/bin/env bash
# Builds target/staticlib/libbench.a, the archive of the proved C calls, where it is missing or older than the sources: the crate bench_c, which
# exports them.
set -euo pipefail
cd "$(dirname "$0")"

archive=target/staticlib/libbench.a
if [ ! -f $archive ]; then
    why="$archive is missing"
elif [ -n "$(find crates -path '*/out' -prune -o -name '*.rt' -newer $archive -print -quit)" ]; then
    why="$archive is older than the sources"
else
    exit 0
fi
if ! command -v rt >/dev/null; then
    echo "$why, and there is no rt to build it with; on a machine with the Rattle toolchain: bash archive.sh" >&2
    exit 1
fi
if ! (cd crates/bench_c && rt lib) >&2; then
    echo "$why, and rt lib in crates/bench_c failed" >&2
    exit 1
fi
mkdir -p target/staticlib
cp crates/bench_c/out/libbench_c.a $archive
