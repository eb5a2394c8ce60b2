#!/usr/bin/env bash
# install.sh PREFIX: proves the unit, builds it for x86-64 Linux, and lays library, header, pkg-config file and the Fortran and Python modules
# under PREFIX. What it lays names no folder, so that PREFIX may be moved. Needs rt, a C compiler (CC, gcc where unset) and nothing else.
set -eu
[ $# = 1 ] && [ -n "$1" ] || { echo "usage: bash install.sh PREFIX" >&2; exit 2; }
mkdir -p "$1"
prefix=$(cd "$1" && pwd)
cd "$(dirname "${BASH_SOURCE[0]}")"

[ -n "${CC:-}" ] || { [ "$(uname -m)" = x86_64 ] && CC=gcc || CC=x86_64-linux-gnu-gcc; }
for tool in rt ${CC%% *}; do command -v "$tool" >/dev/null || { echo "missing: $tool" >&2; exit 1; }; done

mkdir -p target "$prefix/include" "$prefix/lib/pkgconfig" "$prefix/share/surfgimlet"
(cd crates/boundary && exec rt lib --cpu x86-64) >target/install.log 2>&1 || { tail -n 20 target/install.log >&2; exit 1; }

lib=$prefix/lib
number=$(sed -n 's/^#define SURFGIMLET_VERSION //p' include/surfgimlet.h)
# the major number is in the name: a program that was linked with another one does not start
shared=libsurfgimlet.so.$((number / 1000000))
install -m 644 crates/boundary/out/libboundary.a "$lib/libsurfgimlet.a"
$CC -shared -Wl,-soname,"$shared" -Wl,-z,defs -Wl,--whole-archive "$lib/libsurfgimlet.a" -Wl,--no-whole-archive -o "$lib/$shared"
ln -sf "$shared" "$lib/libsurfgimlet.so"
install -m 644 include/surfgimlet.h "$prefix/include/"
install -m 644 bindings/surfgimlet.f90 bindings/surfgimlet.py "$prefix/share/surfgimlet/"

cat >"$lib/pkgconfig/surfgimlet.pc" <<END
prefix=\${pcfiledir}/../..
modules=\${prefix}/share/surfgimlet

Name: surfgimlet
Description: Tide corrections to the coefficients of a gravity field
Version: $((number / 1000000)).$((number / 1000 % 1000)).$((number % 1000))
Cflags: -I\${prefix}/include
Libs: -L\${prefix}/lib -lsurfgimlet
END
echo "surfgimlet $((number / 1000000)).$((number / 1000 % 1000)).$((number % 1000)): proved, and laid under $1"
