#!/usr/bin/env bash
# The header from PREFIX, where install.sh has laid it, in C99, C++98 and C++17: clean under every warning, its promises kept, and a program that
# ignores answers warned of each.
set -eu
[ $# = 1 ] && [ -e "$1/include/surfgimlet.h" ] || { echo "usage: bash tests/header.sh PREFIX, after bash install.sh PREFIX" >&2; exit 2; }
prefix=$(cd "$1" && pwd)
cd "$(dirname "${BASH_SOURCE[0]}")/.."
. tests/boundary/machine.sh
work=$(mktemp -d)
trap 'rm -rf "$work"' EXIT

wanted=$(grep -c '^SURFGIMLET_ANSWER ' "$prefix/include/surfgimlet.h")
for language in "$CC -x c -std=c99" "$CXX -x c++ -std=c++98" "$CXX -x c++ -std=c++17"; do
    $language -O2 -Wall -Wextra -pedantic -Werror $LINK -I"$prefix/include" tests/header.c -x none "$prefix/lib/libsurfgimlet.a" -o "$work/header"
    $RUN "$work/header"
    warned=$(LC_ALL=C $language -I"$prefix/include" -c -o /dev/null tests/ignored.c 2>&1 | grep -c 'warning: ignoring return value' || true)
    [ "$warned" = "$wanted" ] || { echo "$language: $warned warnings of an ignored answer, and not $wanted"; exit 1; }
done
echo "header: clean and as promised in C99, C++98 and C++17; each of $wanted calls warns where its answer is ignored"
