# shellcheck shell=bash
# A part of host/tests.sh: the loader is installed into a folder, a host is built with what stands there alone, in C and in C++, and all of it is taken away
# again. On Debian it installs pkg-config, a C++ compiler and groff where they are missing. `copies` is host/tests.sh's temporary
# folder, `cc` bench/compiler.sh's compiler.
# shellcheck disable=SC2154

prefix=$copies/prefix
release=$(cat host/VERSION)
installed='bin/s57-judge
bin/s57-unit
include/s57loader.h
lib/libs57.a
lib/pkgconfig/s57loader.pc
share/man/man1/s57-judge.1
share/man/man1/s57-unit.1
share/man/man3/s57loader.3'

# Whether a folder has these files and no others.
has_files() { # FOLDER FILES
    diff <(cd "$1" && find . ! -type d | sed 's|^\./||' | LC_ALL=C sort) <(echo "$2")
}

# A command of which only the status matters, and the same where it must fail.
quietly() { # COMMAND..
    "$@" >/dev/null 2>"$copies/errors" || { cat "$copies/errors" && false; }
}
fails() { # COMMAND..
    ! "$@" >/dev/null 2>&1
}

# ---- the version: it stands in host/VERSION, from where the header is given it

check "host/VERSION isn't a number of three parts: $release" grep -qxE '[0-9]+\.[0-9]+\.[0-9]+' host/VERSION
mkdir -p "$copies/numbered/host" "$copies/numbered/crates"
cp host/Makefile host/VERSION host/s57loader.h "$copies/numbered/host"
check 'make -C host version failed' quietly make -s -C "$copies/numbered/host" version
check "host/s57loader.h has another version than host/VERSION: 'make -C host version' writes it" cmp host/s57loader.h "$copies/numbered/host/s57loader.h"
echo 12.34.56 >"$copies/numbered/host/VERSION"
check 'make -C host version failed' quietly make -s -C "$copies/numbered/host" version
check "make -C host version didn't write 12.34.56 into the header" [ "$(diff host/s57loader.h "$copies/numbered/host/s57loader.h" | grep '^>')" = \
    '> #define S57LOADER_VERSION "12.34.56"
> #define S57LOADER_VERSION_MAJOR 12
> #define S57LOADER_VERSION_MINOR 34
> #define S57LOADER_VERSION_PATCH 56' ]

# ---- installed

check 'make -C host install failed' quietly make -s -C host install PREFIX="$prefix"
check 'installed are other files' has_files "$prefix" "$installed"
check 'the installed header is another' cmp host/s57loader.h "$prefix/include/s57loader.h"
check 'the installed archive is another' cmp target/staticlib/libs57.a "$prefix/lib/libs57.a"
for name in s57-judge s57-unit; do
    check "$name isn't installed as a program" [ -x "$prefix/bin/$name" ]
done

# for a package: nothing speaks of the folder that it is packed in
check 'make -C host install DESTDIR=.. failed' quietly make -s -C host install PREFIX=/opt/s57 DESTDIR="$copies/packed"
check 'packed are other files' has_files "$copies/packed/opt/s57" "$installed"
check 'a packed file speaks of the folder that it was packed in' [ -z "$(grep -rlaF "$copies" "$copies/packed")" ]
check "the packed pkg-config file doesn't speak of /opt/s57" grep -qx 'prefix=/opt/s57' "$copies/packed/opt/s57/lib/pkgconfig/s57loader.pc"
check 'a PREFIX that is no whole path was taken' fails make -s -C host install PREFIX=target/prefix

# ---- the programs, under their own names

host_in() { # PROGRAM WORDS..
    BENCH_OUT=$prefix/bin bench/run.sh "$@"
}
mkdir "$copies/kept"
says 0 'samples/harbour.000: The chart is good. (code 0, file 0, record 0)' host_in s57-judge samples/harbour.000
says 1 "$(refusal "$copies/cut.000" 2 1 62)" host_in s57-judge "$copies/cut.000"
says 2 'usage: s57-judge CELL' host_in s57-judge
says 2 "s57-judge: $copies/none.000 can't be read" host_in s57-judge "$copies/none.000"
says 2 "s57-unit: $copies/kept has no chart; admit a base cell first" host_in s57-unit show "$copies/kept"
says 0 'samples/harbour.000: The chart was taken. (code 0, file 0, record 0, number 8191)' host_in s57-unit admit samples/harbour.000 "$copies/kept"
says 0 "samples/harbour.001: The update was taken. (code 0, file 0, record 0, number 8191)
$copies/kept: GB5HRBR1, edition 1, update 1, issued 2024-01-15, updated to 2024-01-15" host_in s57-unit follow "$copies/kept" samples/harbour.001

# ---- the manual pages: groff has nothing to warn of, and they say the release

need groff groff-base || fault 'no groff'
for page in "$prefix"/share/man/man?/*; do
    check "groff warns of ${page##*/}" [ -z "$(groff -ww -man -Tutf8 -z "$page" 2>&1)" ]
    check "${page##*/} doesn't say $release" grep -q "^\.TH .*\"s57loader $release\"" "$page"
    check "something is left to be filled in ${page##*/}" [ -z "$(grep '@[A-Z]*@' "$page")" ]
done
for code in {1..21}; do
    check "s57loader.3 doesn't say what docs/CODES.md has for $code" grep -qxF "$(sentence "$code")" "$prefix/share/man/man3/s57loader.3"
done

# ---- a host outside of this repository: its folder has its one file

need pkg-config pkg-config || fault 'no pkg-config'
libraries=
case $(uname -m) in
x86_64)
    need g++ g++ || fault 'no g++'
    cxx='g++' ;;
*)
    need x86_64-linux-gnu-g++ g++-x86-64-linux-gnu || fault 'no g++ for x86-64'
    cxx='x86_64-linux-gnu-g++ -static -nodefaultlibs'
    # but for libm: Debian's static one for x86-64 leads to files that are there on x86-64 alone
    libraries='-Wl,--start-group -lstdc++ -lgcc -lgcc_eh -lc -Wl,--end-group' ;;
esac

package() { # WORDS..
    PKG_CONFIG_PATH='' PKG_CONFIG_LIBDIR=$prefix/lib/pkgconfig pkg-config "$@" s57loader
}
check "pkg-config has another version than $release" [ "$(package --modversion)" = "$release" ]

# shellcheck disable=SC2046,SC2086
# (the compiler's words and pkg-config's are meant to be split)
build_outside() { # STANDARD COMPILER SOURCE [LIBRARIES]
    (cd "$copies/outside" && $2 -std="$1" -Wall -Wextra -Wpedantic -Werror -O2 "$3" $(package --cflags --libs) ${4-} -o "outside-$1")
}
answers() { # STANDARD CELL UPDATE
    BENCH_OUT=$copies/outside bench/run.sh "outside-$1" "$2" "$3"
}
# Whether what README's host kept is what unit keeps of these files.
same_as_unit() { # BASE UPDATES..
    mkdir "$copies/alike" && quietly host_in s57-unit admit "$1" "$copies/alike" && quietly host_in s57-unit follow "$copies/alike" "${@:2}" &&
        cmp "$copies/outside/kept" "$copies/alike/cell.000"
}
mkdir "$copies/outside"
cp host/tests/outside.c "$copies/outside/outside.c"
cp host/tests/outside.c "$copies/outside/outside.cc"
for standard in c99 c11 c++11 c++17; do
    case $standard in
    c++*) check "a host in $standard can't be built" build_outside $standard "$cxx" outside.cc "$libraries" ;;
    *) check "a host in $standard can't be built" build_outside $standard "$cc" outside.c ;;
    esac
    says 0 "$release $release
judge 0: 0 0 0 0
admit 0: 0 0 0 8191
apply 0: 0 0 0 8191" answers $standard samples/harbour.000 samples/harbour.001
    says 0 "$release $release
judge 2: 2 1 62 0
admit 2: 2 1 62 0
apply 2: 2 1 62 0" answers $standard "$copies/cut.000" samples/harbour.001
    says 0 "$release $release
judge 0: 0 0 0 0
admit 0: 0 0 0 8191
apply 11: 11 2 1 0" answers $standard samples/harbour.000 samples/harbour.002
done

# ---- README's host of twenty lines, as it stands there

sed -n '/^```c$/,/^```$/p' README.md | sed '/^```/d' >"$copies/outside/keep.c"
check "README.md has no host" grep -q '^int main' "$copies/outside/keep.c"
check "README.md's host can't be built" build_outside c11 "$cc" keep.c
kept() { # FILES..
    BENCH_OUT=$copies/outside bench/run.sh outside-c11 "$@" 2>&1 >"$copies/outside/kept"
}
says 0 "$(sed -n '/^It prints$/,/^Update 3/p' README.md | sed -n 's/^    //p')" kept samples/harbour.000 samples/harbour.001 samples/harbour.003 samples/harbour.002
check "README.md's host keeps another chart than unit does" same_as_unit samples/harbour.000 samples/harbour.001 samples/harbour.002
says 0 "$copies/cut.000: code 2, file 1, record 62" kept "$copies/cut.000"
check "README.md's host keeps something of a cell that was refused" [ ! -s "$copies/outside/kept" ]

# ---- taken away: all of it, and nothing else

echo mine >"$prefix/lib/libmine.a"
check 'make -C host uninstall failed' quietly make -s -C host uninstall PREFIX="$prefix"
check 'uninstall left other files, or took some that are not its own' has_files "$prefix" lib/libmine.a
