#!/bin/sh
usage() {
    cat <<'TEXT'
usage: [PREFIX=/usr/local] [DESTDIR=FOLDER] ./install.sh

Installs the libraries that lie beside this script: headers, archives, shared library, the
files of pkg-config and CMake, the manual page, README, LICENSE and examples.
  PREFIX   where it is to be found, a whole path; /usr/local where it isn't given
  DESTDIR  a folder that stands for /, for packing: files go to DESTDIR/PREFIX

needs   nothing but a shell; the right to write there
writes  PREFIX/include, PREFIX/lib, PREFIX/share. Then run ldconfig once, so that programs find
        the shared library; where it doesn't know PREFIX/lib, link with -Wl,-rpath,PREFIX/lib
takes   no time to speak of
TEXT
}

case "${1-}" in
    -h | --help) usage; exit 0 ;;
esac
[ $# -eq 0 ] || { echo "install: $1 is unknown (./install.sh --help tells more)" >&2; exit 2; }
set -eu
unset CDPATH
umask 022
here=$(dirname -- "$(readlink -f -- "$0")")
prefix=${PREFIX:-/usr/local}
case "$prefix" in
    /*) ;;
    *) echo "install: PREFIX is to be a whole path, not '$prefix' (./install.sh --help tells more)" >&2; exit 2 ;;
esac
to=${DESTDIR-}$prefix
mkdir -p -- "$to" 2> /dev/null || { echo "install: $to can't be made (PREFIX and DESTDIR say where)" >&2; exit 1; }
[ "$(readlink -f -- "$to")" != "$here" ] || { echo "install: $to is what is to be installed (PREFIX and DESTDIR say where)" >&2; exit 2; }
[ -w "$to" ] || { echo "install: $to can't be written (PREFIX and DESTDIR say where)" >&2; exit 1; }

# put MODE FOLDER FILE..: as a new file, so that a program that has the old one open keeps it
put() {
    mode=$1
    folder=$to/$2
    shift 2
    mkdir -p -- "$folder"
    for file in "$@"; do
        rm -f -- "$folder/${file##*/}"
        cp -- "$file" "$folder/"
        chmod -- "$mode" "$folder/${file##*/}"
    done
}

put 644 include "$here"/include/*
put 644 lib "$here"/lib/*.a
put 755 lib "$here"/lib/*.so.*.*.*
ln -sf -- libam9517.so.@VERSION@ "$to/lib/libam9517.so.@MAJOR@"
ln -sf -- libam9517.so.@MAJOR@ "$to/lib/libam9517.so"
put 644 lib/pkgconfig "$here"/lib/pkgconfig/*
put 644 lib/cmake/am9517 "$here"/lib/cmake/am9517/*
put 644 share/man/man3 "$here"/share/man/man3/*
put 644 share/doc/am9517 "$here/README" "$here/LICENSE"
put 644 share/doc/am9517/examples "$here"/examples/*
echo "am9517 @VERSION@ is installed in $to (run ldconfig for the shared library)"
