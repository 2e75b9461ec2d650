#!/bin/sh
usage() {
    cat <<'TEXT'
usage: ./dist.sh [--to FOLDER] [--install]

Proves the crates c_am9517_c and c_board_c and the program rack and makes dist/: the C library
as a host takes it, the board's beside it, and the console as a pier runs it, with no toolchain.
  --to FOLDER  makes FOLDER instead of dist/
  --install    then installs the libraries (not the console): headers, archives, shared
               library, pkg-config, CMake, manual page. PREFIX says where (/usr/local),
               DESTDIR stands for / when packing. FOLDER/install.sh does the same later,
               and elsewhere, with no toolchain

needs   the Rattle toolchain (its command rt), whose own linker makes the shared library
writes  FOLDER: include/, lib/, share/man, examples/, rack/, install.sh, LICENSE, README,
        in place of what this script made there before, and of nothing else; crates/*/out;
        with --install DESTDIR/PREFIX
takes   tens of minutes for the proofs, where nothing was proved before; a minute where all is
TEXT
}

refuse() {
    echo "dist: $1 (./dist.sh --help tells more)" >&2
    exit 2
}

fail() {
    echo "dist: $1" >&2
    exit 1
}

# whole FOLDER: its whole path, from the caller's folder
whole() {
    case $1 in
        /*) readlink -m -- "$1" ;;
        *) readlink -m -- "$called/$1" ;;
    esac
}

# made FOLDER: whether this script made it, and nothing else lies in it
made() {
    [ -x "$1/rack/rack" ] && [ -x "$1/install.sh" ] && [ "$(sed -n 4p "$1/install.sh")" = "$(sed -n 4p packaging/install.sh)" ] \
        && ! ls -A -- "$1" | grep -qvxE 'LICENSE|README|examples|include|install\.sh|lib|rack|share'
}

set -eu
unset CDPATH
umask 022
called=$PWD
cd -- "$(dirname -- "$(readlink -f -- "$0")")"
out=$PWD/dist
install=
while [ $# -gt 0 ]; do
    case $1 in
        -h | --help) usage; exit 0 ;;
        --install) install=yes ;;
        --to)
            [ -n "${2-}" ] || refuse "--to wants a folder"
            out=$(whole "$2")
            shift ;;
        *) refuse "$1 is unknown" ;;
    esac
    shift
done
if [ -n "$install" ]; then
    case ${PREFIX:-/usr/local} in /*) ;; *) refuse "PREFIX is to be a whole path, not '$PREFIX'" ;; esac
    if [ -n "${DESTDIR-}" ]; then DESTDIR=$(whole "$DESTDIR"); export DESTDIR; fi
fi
if [ -e "$out" ] && ! made "$out"; then fail "$out is there and isn't what this script made alone: it isn't replaced"; fi
if ! command -v rt > /dev/null 2>&1; then
    [ ! -e "$out" ] || echo "dist: what $out has from earlier can be installed with no toolchain: $out/install.sh" >&2
    fail "the Rattle toolchain (its command rt) is not installed, or not on PATH, and only it proves and makes the library"
fi

version=$(sed -n 's/^#define AM9517_VERSION_\(MAJOR\|MINOR\|PATCH\) //p' include/am9517.h | paste -sd. -)
major=${version%%.*}
tools=$(dirname -- "$(readlink -f -- "$(rt doc)")")/toolchain

tools/archive c_am9517_c c_board_c
./rack --proved --version > /dev/null

# beside its place, under a name that nothing has; what fails leaves the old one as it was
mkdir -p -- "$(dirname -- "$out")"
beside=$(mktemp -d -- "$out.XXXXXX")
trap 'rm -rf -- "$beside"' EXIT
trap 'exit 1' HUP INT TERM
new=$beside/new
mkdir -p -- "$new/include" "$new/lib/pkgconfig" "$new/lib/cmake/am9517" "$new/share/man/man3" "$new/examples" "$new/rack/bin" "$new/rack/examples"

# filled SOURCE TARGET: with the header's version
filled() {
    sed "s/@VERSION@/$version/g; s/@MAJOR@/$major/g" "packaging/$1" > "$new/$2"
}

cp include/am9517.h include/am9517.hpp include/am9517_board.h "$new/include/"
cp crates/c_am9517_c/out/libc_am9517_c.a "$new/lib/libam9517.a"
cp crates/c_board_c/out/libc_board_c.a "$new/lib/libam9517_board.a"
# memset is asked of the C library by name; nothing but the calls is shown
"$tools/bin/ld.lld" -shared -soname "libam9517.so.$major" -z defs -z text -z now -z noexecstack --build-id --version-script packaging/exports.map \
    -o "$new/lib/libam9517.so.$version" --whole-archive "$new/lib/libam9517.a" --no-whole-archive "$tools/lib/libc.so.6"
chmod 755 "$new/lib/libam9517.so.$version"
# copies, for the gate takes no checkout that has a link in it; install.sh makes links
cp -p "$new/lib/libam9517.so.$version" "$new/lib/libam9517.so.$major"
cp -p "$new/lib/libam9517.so.$version" "$new/lib/libam9517.so"
filled am9517.pc lib/pkgconfig/am9517.pc
filled am9517_board.pc lib/pkgconfig/am9517_board.pc
filled am9517Config.cmake lib/cmake/am9517/am9517Config.cmake
filled am9517ConfigVersion.cmake lib/cmake/am9517/am9517ConfigVersion.cmake
cp docs/am9517.3 "$new/share/man/man3/"
cp examples/host.c examples/host.cpp examples/host.out examples/am9517.py examples/rack_emulator.c examples/rack_emulator.out \
    examples/rack_board.c examples/rack_board.out "$new/examples/"
filled install.sh install.sh
chmod 755 "$new/install.sh"
filled README README
cp LICENSE "$new/"

cp packaging/rack "$new/rack/rack"
cp judge "$new/rack/judge"
cp crates/rack/out/rack "$new/rack/bin/rack"
chmod 755 "$new/rack/rack" "$new/rack/judge" "$new/rack/bin/rack"
for script in examples/*.rack examples/*.sh; do cp "$script" "${script%.*}.out" "$new/rack/examples/"; done
cp docs/CONSOLE.md docs/LOGS.md LICENSE "$new/rack/"

trap '' HUP INT TERM
[ ! -e "$out" ] || mv -- "$out" "$beside/old"
mv -- "$new" "$out"
trap - HUP INT TERM
echo "dist: $out is made, version $version: include/ lib/ share/ examples/ rack/ install.sh"
[ -z "$install" ] || "$out/install.sh"
