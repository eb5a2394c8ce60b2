#!/usr/bin/env bash
# Builds the examples from an installed unit through pkg-config, runs them in C, Fortran and Python, and holds each to what is stored: epoch.stdout, and
# for the file that field writes field.stdout, which is held to the second program.
# run.sh PREFIX takes what install.sh has laid there; without PREFIX it installs into a temporary folder.
set -eu
work=$(mktemp -d)
trap 'rm -rf "$work"' EXIT
prefix=$work/prefix
[ $# = 0 ] || prefix=$(cd "$1" && pwd)
cd "$(dirname "${BASH_SOURCE[0]}")/.."
. tests/boundary/machine.sh

[ $# = 1 ] || CC=$CC bash install.sh "$prefix"
[ -e "$prefix/lib/pkgconfig/surfgimlet.pc" ] || { echo "nothing is installed under $prefix"; exit 1; }
export PKG_CONFIG_PATH=$prefix/lib/pkgconfig LD_LIBRARY_PATH=$prefix/lib
flags=$(pkg-config --cflags --libs surfgimlet)
modules=$(pkg-config --variable=modules surfgimlet)

strict="-O2 -Wall -Wextra -pedantic -Werror"
for example in epoch field; do
    $CC -std=c99 $strict $LINK "examples/$example.c" $flags -o "$work/${example}_c"
    $FC -std=f2008 $strict $LINK -J "$work" "$modules/surfgimlet.f90" "examples/$example.f90" $flags -o "$work/${example}_fortran"
    if [ "$EMULATED" = no ]; then
        $CC -std=c99 $strict "examples/$example.c" $flags -o "$work/${example}_shared"
    else
        echo "$example.py: not run, the shared object wants an x86-64 Python"
    fi
done

# what runs an example, a line each
programs_of() {
    printf '%s\n' "$RUN $work/$1_c" "$RUN $work/$1_fortran"
    [ "$EMULATED" = yes ] || printf '%s\n' "$work/$1_shared" "env PYTHONDONTWRITEBYTECODE=1 PYTHONPATH=$modules python3 examples/$1.py"
}

python3 examples/sheet.py bytes examples/ocean.txt "$work/sheet"
python3 examples/sheet.py table "$work/sheet" "$work/table"
python3 examples/sheet.py bytes "$work/table" "$work/again"
cmp "$work/sheet" "$work/again"
echo "sheet: table to bytes, to table, to the same bytes"

mapfile -t programs < <(programs_of epoch)
for program in "${programs[@]}"; do
    name=${program##*/}
    $program "$work/sheet" <examples/epoch.txt >"$work/stdout" || { cat "$work/stdout"; exit 1; }
    cmp "$work/stdout" examples/epoch.stdout || { echo "$name: another output than examples/epoch.stdout"; exit 1; }
    for wrong in -1 4294967296 99999999999; do
        ! sed "1s/^[0-9]*/$wrong/" examples/epoch.txt | $program "$work/sheet" >"$work/stdout" 2>/dev/null || { echo "$name: $wrong taken for a phase"; exit 1; }
        ! grep -qx "solid tide" "$work/stdout" || { echo "$name: solid tide worked out with the phase $wrong"; exit 1; }
    done
    for wrong in 14 4294967298; do
        ! sed "5s/^0 2 /0 $wrong /" examples/epoch.txt | $program "$work/sheet" >"$work/stdout" 2>/dev/null || { echo "$name: $wrong taken for a multiplier"; exit 1; }
        ! grep -qx "own lines" "$work/stdout" || { echo "$name: own lines worked out with the multiplier $wrong"; exit 1; }
    done
    for wrong in 1000001 -4294967296; do
        ! sed "\$s/^[-0-9]*/$wrong/" examples/epoch.txt | $program "$work/sheet" >"$work/stdout" 2>/dev/null || { echo "$name: $wrong taken for a pole offset"; exit 1; }
        ! grep -qx "pole tide" "$work/stdout" || { echo "$name: pole tide worked out with the offset $wrong"; exit 1; }
    done
    echo "$name: as stored; -1, 4294967296 and 99999999999 are no phases, 14 and 4294967298 no multipliers, 1000001 and -4294967296 no pole offsets"
done

(cd second && python3 -B example.py) >"$work/due"
cmp "$work/due" examples/field.stdout || { echo "the second program writes another file than examples/field.stdout"; exit 1; }
mapfile -t programs < <(programs_of field)
for program in "${programs[@]}"; do
    name=${program##*/}
    $program examples/field.gfc "$work/$name.gfc"
    cmp "$work/$name.gfc" examples/field.stdout || { echo "$name: another file than examples/field.stdout"; exit 1; }
    # a line of another kind, a place twice, half a count beyond 2^60, another system
    for wrong in '17 s/^gfc    6    6/gfct   6    6/' '18 s/^gfc    6    6/gfc    6    5/' '19 s/0.100000000000E+01/0.11529215046068469765E+04/' '20 s/tide_free/tide-free/'; do
        sed "${wrong#* }" examples/field.gfc >"$work/wrong.gfc"
        ! $program "$work/wrong.gfc" "$work/none.gfc" >"$work/stdout" 2>&1 || { echo "$name: a file accepted after ${wrong#* }"; exit 1; }
        grep -q "refused with ${wrong%% *}: " "$work/stdout" || { cat "$work/stdout"; echo "$name: not refused with ${wrong%% *}"; exit 1; }
        [ ! -e "$work/none.gfc" ] || { echo "$name: a file written from one that is refused"; exit 1; }
    done
    echo "$name: the file as stored; others refused with 17, 18, 19 and 20, and none written"
done
