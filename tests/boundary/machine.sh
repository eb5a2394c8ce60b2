# Sourced from the root: the compilers of x86-64 programs as CC, CXX and FC, how they link as LINK, the lister of their symbols as NM,
# what runs such a program as RUN, and whether that is an emulator as EMULATED. Where this is root, missing packages are installed.
# The cross library's static mathematics cannot be linked where Debian puts it, so what an emulator runs is linked to the shared one.
if [ "$(uname -m)" = x86_64 ]; then
    CC=gcc CXX=g++ FC=gfortran LINK=-static NM=nm RUN= EMULATED=no
    packages="gcc g++ gfortran libc6-dev python3 binutils pkg-config"
    library=
else
    CC=x86_64-linux-gnu-gcc CXX=x86_64-linux-gnu-g++ FC=x86_64-linux-gnu-gfortran LINK= NM=x86_64-linux-gnu-nm RUN="qemu-x86_64 -L /usr/x86_64-linux-gnu" EMULATED=yes
    packages="gcc-x86-64-linux-gnu g++-x86-64-linux-gnu gfortran-x86-64-linux-gnu libc6-dev-amd64-cross binutils-x86-64-linux-gnu qemu-user python3 pkg-config"
    library=/usr/x86_64-linux-gnu/include/stdio.h
fi

missing() {
    for tool in $CC $CXX $FC $NM ${RUN%% *} python3 pkg-config; do command -v "$tool" >/dev/null || { echo "$tool"; return; }; done
    [ -z "$library" ] || [ -e "$library" ] || echo "$library"
}

if [ -n "$(missing)" ] && [ "$(id -u)" = 0 ] && command -v apt-get >/dev/null; then
    apt-get -qq update >/dev/null 2>&1 || true
    DEBIAN_FRONTEND=noninteractive apt-get -qq install -y --no-install-recommends $packages >/dev/null 2>&1 || true
fi
[ -z "$(missing)" ] || { echo "missing: $(missing) (Debian's packages: $packages)"; exit 1; }
command -v rt >/dev/null || { echo "missing: rt (the Rattle toolchain)"; exit 1; }

ARCHIVE=crates/boundary/out/libboundary.a
BUILD=target/boundary

# prove and write the archive of a crate, or say why not
archive() {
    mkdir -p target
    (cd "crates/$1" && exec rt lib --cpu x86-64) >"target/lib-$1.log" 2>&1 || { tail -n 20 "target/lib-$1.log"; exit 1; }
}
