#!/usr/bin/env bash
# The C library as a stranger gets it: install.sh into a scratch folder, programs compiled by pkg-config against what is there, shared and
# static, in C and C++, and run on a stack of 1 MB; the names that the libraries export; and what install.sh says where it cannot install.
# Needs gcc, g++, binutils and pkg-config; and rt, where the archive is missing or older than the sources (archive.sh).
set -u
cd "$(dirname "$0")/.." || exit 1
folder=$(mktemp -d)
trap 'rm -rf "$folder"' EXIT
prefix=$folder/prefix
lib=$prefix/lib
header=$prefix/include/glaukemis.h
strict="-Wall -Wextra -Wpedantic -Werror"
passed=0 failed=0

# A test: what it is, and a command that ends well.
try() {
    local what=$1
    shift
    if "$@" >"$folder/log" 2>&1; then
        passed=$((passed + 1))
    else
        echo "$what: failed"
        cat "$folder/log"
        failed=$((failed + 1))
    fi
}

# pkg-config over what was installed, and nothing else.
packages() { PKG_CONFIG_PATH='' PKG_CONFIG_LIBDIR=$lib/pkgconfig pkg-config "$@" glaukemis; }

# program FILE shared|static COMPILER...: compiles it with what pkg-config tells, and runs it; what it prints goes to $folder/out.
program() {
    local file=$1 how=$2 flags
    shift 2
    if [ "$how" = static ]; then
        flags="-static $(packages --cflags --libs --static)" || return 1
    else
        flags=$(packages --cflags --libs) || return 1
    fi
    # shellcheck disable=SC2086
    "$@" $strict "$file" -x none $flags -o "$folder/program" || return 1
    if [ "$how" = shared ]; then
        readelf -d "$folder/program" | grep -F "[$soname]" || return 1
    fi
    (ulimit -s 1024 && LD_LIBRARY_PATH=$([ "$how" = shared ] && echo "$lib") "$folder/program") >"$folder/out"
}

example() { program examples/pulsator.c "$@" && diff examples/pulsator.out "$folder/out"; }

# A program that prints what is wrong.
silent() { program "$@" || { cat "$folder/out" && false; }; }

# The header by itself, before anything else is included.
alone() {
    # shellcheck disable=SC2046,SC2086
    echo '#include <glaukemis.h>' | "$@" $strict $(packages --cflags) -fsyntax-only -
}

# The names of a list in order, and the calls that the header declares.
names() { awk '{ print $NF }' | sort; }
calls() { gcc -E -P "$header" | grep -oE 'glaukemis_[a-z0-9_]+ *\(' | tr -d ' (' | names; }

# The same list twice, and not an empty one.
same() { [ -s "$1" ] && diff "$1" "$2"; }

# The version: its parts, and what pkg-config tells.
version() {
    printf '#include <glaukemis.h>\nGLAUKEMIS_VERSION GLAUKEMIS_VERSION_MAJOR GLAUKEMIS_VERSION_MINOR GLAUKEMIS_VERSION_PATCH\n' |
        gcc -E -P -I"$prefix/include" - | tail -n 1 >"$folder/version"
    cat "$folder/version"
    [[ $(cat "$folder/version") =~ ^\"(([0-9]+)\.([0-9]+)\.([0-9]+))\"\ ([0-9]+)\ ([0-9]+)\ ([0-9]+)$ ]] &&
        [ "${BASH_REMATCH[*]:2:3}" = "${BASH_REMATCH[*]:5:3}" ] && [ "$(packages --modversion)" = "${BASH_REMATCH[1]}" ]
}

# install.sh fails, says a word of why, and leaves nothing behind.
refuses() {
    local word=$1
    shift
    if "$@" >"$folder/said" 2>&1; then
        cat "$folder/said"
        echo "it did not refuse"
        return 1
    fi
    cat "$folder/said"
    grep -qF "$word" "$folder/said" && [ ! -e "$folder/none" ]
}

command -v pkg-config >/dev/null || apt-get install -y -q pkgconf
try "pkg-config" command -v pkg-config
try "install.sh" bash install.sh "$prefix"
try "the version" version
soname=libglaukemis.so.$(packages --modversion | cut -d . -f 1)

try "the header in C99" alone gcc -std=c99 -x c
try "the header in C11" alone gcc -std=c11 -x c
try "the header in C++98" alone g++ -std=c++98 -x c++
try "the header in C++17" alone g++ -std=c++17 -x c++
for how in shared static; do
    try "the example in C11, $how" example $how gcc -std=c11 -x c
    try "the example in C++17, $how" example $how g++ -std=c++17 -x c++
    try "the calls on bytes in C11, $how" silent tests/bytes.c $how gcc -std=c11 -x c
    try "the header's numbers and the library's, $how" silent tests/header.c $how gcc -std=c11 -x c
done

calls >"$folder/calls"
nm -g --defined-only "$lib/libglaukemis.a" | awk 'NF == 3' | names >"$folder/of_a"
nm -D --defined-only "$lib/libglaukemis.so" | names >"$folder/of_so"
try "libglaukemis.a exports the header's calls alone" same "$folder/calls" "$folder/of_a"
try "libglaukemis.so exports the header's calls alone" same "$folder/calls" "$folder/of_so"
nm -u "$lib/libglaukemis.a" | awk 'NF == 2' | names >"$folder/needs"
printf '%s\n' memcpy memset >"$folder/two"
try "libglaukemis.a needs two functions of the C library alone" same "$folder/two" "$folder/needs"
readelf -d "$lib/libglaukemis.so" | sed -n 's/.*(SONAME).*\[\(.*\)\]/\1/p' >"$folder/soname"
echo "$soname" >"$folder/due"
try "libglaukemis.so names itself by the first part of the version" same "$folder/due" "$folder/soname"

# Staged for a package: the same files below DESTDIR, for the prefix without it.
try "install.sh with DESTDIR" env DESTDIR="$folder/stage" bash install.sh "$prefix"
try "what it staged" diff -r "$prefix" "$folder/stage$prefix"
# A prefix that begins where one stands.
mkdir "$folder/here" && install_here() { (cd "$folder/here" && bash "$OLDPWD/install.sh" there); }
try "install.sh with a relative prefix" install_here
try "what it installed" diff -r -x glaukemis.pc "$prefix" "$folder/here/there"
try "where its pkg-config file says it is" grep -qx "prefix=$folder/here/there" "$folder/here/there/lib/pkgconfig/glaukemis.pc"

# Where it cannot install: no prefix, no archive and no rt, an archive that is older than the sources, and one that lacks a call.
mkdir -p "$folder/tree/include" "$folder/tree/crates" "$folder/tree/target/staticlib" "$folder/bin"
tree=$folder/tree
archive=target/staticlib/libbench.a
cp install.sh archive.sh "$tree/" && cp include/glaukemis.h "$tree/include/" && cp $archive "$tree/$archive"
for tool in bash gcc ld as objcopy ar nm install dirname mktemp find sed grep tr sort awk diff cat rm ln; do
    ln -s "$(command -v $tool)" "$folder/bin/$tool"
done
without_rt() { PATH=$folder/bin bash "$tree/install.sh" "$folder/none"; }
try "no prefix" refuses "PREFIX" bash install.sh
try "two prefixes" refuses "PREFIX" bash install.sh "$folder/none" "$folder/none"
try "a blank in the prefix" refuses "no blanks" bash install.sh "$folder/none/a b"
try "DESTDIR and a relative prefix" refuses "DESTDIR" env DESTDIR="$folder/none" bash install.sh none
touch -d '1 hour' "$tree/crates/later.rt"
try "an archive older than the sources, and no rt" refuses "older than the sources" without_rt
rm "$tree/crates/later.rt" "$tree/$archive"
try "no archive, and no rt" refuses "is missing" without_rt
cp $archive "$tree/$archive"
sed -i 's/^glaukemis_weigh_answer glaukemis_weigh(/glaukemis_weigh_answer glaukemis_lacking(void);\n&/' "$tree/include/glaukemis.h"
try "an archive that lacks a call" refuses "glaukemis_lacking" without_rt
sed -i '/^#define GLAUKEMIS_VERSION "/d' "$tree/include/glaukemis.h"
try "a header without a version" refuses "has no version" without_rt
cp include/glaukemis.h "$tree/include/"
rm "$folder/bin/objcopy"
try "no objcopy" refuses "objcopy is missing" without_rt
ln -s "$(command -v objcopy)" "$folder/bin/objcopy"
try "the same tree without a fault" without_rt

echo "$passed passed, $failed failed"
[ "$failed" -eq 0 ] && [ "$passed" -gt 0 ]
