#!/usr/bin/env bash
# Installs the C library:
#
#     bash install.sh PREFIX
#
# puts below PREFIX
#
#     include/glaukemis.h
#     lib/libglaukemis.a
#     lib/libglaukemis.so -> libglaukemis.so.1 -> libglaukemis.so.1.0.1
#     lib/pkgconfig/glaukemis.pc
#
# and below $DESTDIR$PREFIX where DESTDIR is set, as for a package. Both libraries have the header's calls and no other name.
# Needs gcc and binutils; and rt, where target/staticlib/libbench.a is missing or older than the sources.
set -euo pipefail

stop() {
    echo "install.sh: $*" >&2
    exit 1
}

if [ $# -ne 1 ] || [ -z "$1" ]; then
    stop "say where to: bash install.sh PREFIX, for instance /usr/local"
fi
prefix=$1
case $prefix in
/*) ;;
*)
    [ -z "${DESTDIR:-}" ] || stop "with DESTDIR the prefix has to begin with /"
    prefix=$PWD/$prefix
    ;;
esac
case $prefix in
*[[:space:]]*) stop "no blanks in the prefix, please: pkg-config would take them for the end of it" ;;
esac
[ "$prefix" = / ] || prefix=${prefix%/}
cd "$(dirname "$0")"
for tool in gcc ld objcopy ar nm install; do
    command -v $tool >/dev/null || stop "$tool is missing; Debian has it in gcc, binutils and coreutils"
done

# The archive of the proved calls.
archive=target/staticlib/libbench.a
bash archive.sh || stop "there is no archive to install"

# What the header says: its version, and the calls.
header=include/glaukemis.h
version=$(sed -n 's/^#define GLAUKEMIS_VERSION "\([0-9]*\.[0-9]*\.[0-9]*\)"$/\1/p' $header)
[ -n "$version" ] || stop "$header has no version"
soname=libglaukemis.so.${version%%.*}
folder=$(mktemp -d)
trap 'rm -rf "$folder"' EXIT
gcc -E -P $header | grep -oE 'glaukemis_[a-z0-9_]+ *\(' | tr -d ' (' | sort -u >"$folder/calls"

# One object, in which the calls alone are global; of it both libraries.
ld -r --whole-archive $archive -o "$folder/all.o"
objcopy --keep-global-symbols="$folder/calls" "$folder/all.o" "$folder/glaukemis.o"
nm -g --defined-only "$folder/glaukemis.o" | awk '{ print $3 }' | sort >"$folder/global"
diff "$folder/calls" "$folder/global" >"$folder/diff" ||
    stop "the calls of $header (<) are not those of $archive (>); remove that and run again"$'\n'"$(cat "$folder/diff")"
ar rcsD "$folder/libglaukemis.a" "$folder/glaukemis.o"
gcc -shared -Wl,-soname,"$soname" -Wl,-z,defs,-z,now,-z,relro \
    "$folder/glaukemis.o" -o "$folder/libglaukemis.so"

cat >"$folder/glaukemis.pc" <<END
prefix=$prefix
includedir=\${prefix}/include
libdir=\${prefix}/lib

Name: glaukemis
Description: Test formulas rewritten over dimensionless groups
Version: $version
Cflags: -I\${includedir}
Libs: -L\${libdir} -lglaukemis
END

to=${DESTDIR:-}${prefix%/}
install -d "$to/include" "$to/lib/pkgconfig"
install -m 644 $header "$to/include/glaukemis.h"
install -m 644 "$folder/libglaukemis.a" "$to/lib/libglaukemis.a"
install -m 755 "$folder/libglaukemis.so" "$to/lib/libglaukemis.so.$version"
ln -sf "libglaukemis.so.$version" "$to/lib/$soname"
ln -sf "$soname" "$to/lib/libglaukemis.so"
install -m 644 "$folder/glaukemis.pc" "$to/lib/pkgconfig/glaukemis.pc"
echo "glaukemis $version is installed below ${to:-/}"
