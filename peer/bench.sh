#!/usr/bin/env bash
# The benchmark of docs/BENCHMARKS.md: installs FLINT and PARI where they are missing, and times the static library beside them in one run.
set -eu
cd "$(dirname "$0")"
dpkg -s libflint-dev libpari-dev >/dev/null 2>&1 || apt-get install -y -q libflint-dev libpari-dev
library=../target/staticlib
bash ../archive.sh
gcc -O2 -Wall -Wextra -c others.c -o "$library/others.o"
ar rcs "$library/libothers.a" "$library/others.o"
cargo run --release --offline --quiet --features bench,others --bin bench
