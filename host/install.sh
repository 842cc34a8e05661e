#!/bin/sh
# Installs what a maker of chart programs needs, or takes it away again: the header, the archive, a pkg-config file, the example hosts as s57-judge and
# s57-unit, and manual pages. `make -C host install` builds what is missing first.
# usage: host/install.sh install [ARCHIVE]    default target/staticlib/libs57.a at the repository's top
#        host/install.sh uninstall
# $PREFIX is the folder that gets them, default /usr/local. $DESTDIR, if set, goes in front of it, and no file that is installed speaks of it: for those who
# make packages. Folders that were made stay, since others may use them.
set -eu

here=$(cd "$(dirname "$0")" && pwd -P)
top=$(dirname "$here")
prefix=${PREFIX:-/usr/local}
to=${DESTDIR-}$prefix
case $prefix in
/*) ;;
*) echo "host/install.sh: PREFIX must begin with /: $prefix" >&2; exit 2 ;;
esac
version=$(cat "$here/VERSION")

# All that is installed: mode and name there, one a line.
all='644 include/s57loader.h
644 lib/libs57.a
644 lib/pkgconfig/s57loader.pc
755 bin/s57-judge
755 bin/s57-unit
644 share/man/man1/s57-judge.1
644 share/man/man1/s57-unit.1
644 share/man/man3/s57loader.3'

# A file of this folder with the version, the prefix and the list of the codes in it.
filled() { # FILE
    quoted=$(printf '%s\n' "$prefix" | sed 's/[\\&|]/\\&/g')
    "$here/codes.sh" manual >"$copies/codes"
    sed -e "s|@VERSION@|$version|" -e "s|@PREFIX@|$quoted|" -e "/^@CODES@\$/{
        r $copies/codes
        d
    }" "$here/$1"
}

# What is to be installed under that name, as a file.
source_of() { # NAME
    case $1 in
    include/*) echo "$here/${1##*/}" ;;
    lib/libs57.a) echo "$archive" ;;
    bin/*) echo "$top/target/host/${1##*/}" ;;
    lib/pkgconfig/*)
        filled "${1##*/}.in" >"$copies/${1##*/}"
        echo "$copies/${1##*/}" ;;
    share/man/*)
        filled "man/${1##*/}" >"$copies/${1##*/}"
        echo "$copies/${1##*/}" ;;
    esac
}

case ${1-} in
install)
    archive=${2:-$top/target/staticlib/libs57.a}
    copies=$(mktemp -d)
    trap 'rm -rf "$copies"' EXIT
    echo "$all" | while read -r mode name; do
        install -D -m "$mode" "$(source_of "$name")" "$to/$name"
        echo "$to/$name"
    done
    [ "$(uname -m)" = x86_64 ] || echo 'The archive and both programs are x86-64 code; the programs are static, and qemu-x86_64 runs them here.' ;;
uninstall)
    echo "$all" | while read -r mode name; do
        rm -f "$to/$name"
    done ;;
*)
    echo 'usage: host/install.sh install [ARCHIVE] | uninstall' >&2
    exit 2 ;;
esac
