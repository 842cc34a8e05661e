#!/bin/sh
# Whether each folder of bench/ uses only what bench/README.md lets it use ("Directions"), and no two files use each other: by the includes of all files,
# and by the functions and variables that the parts take from one another, as bench/build.sh compiled them.
# usage: bench/check-directions.sh [OBJECTS]   default target/bench/alone at the repository's top
# Ends with the line 'N passed, M failed'. Wants nothing beyond a shell, GNU's usual tools and the linker's.
set -u
LC_ALL=C
export LC_ALL
cd "$(dirname "$0")" || exit 2
objects=${1:-${BENCH_OUT:-../target/bench}/alone}
dir=$(mktemp -d) || exit 2
trap 'rm -rf "$dir"' EXIT
passed=0
failed=0

# Whether a file of a folder may use another: the table of bench/README.md. The proved code is known by two headers.
allowed() { # FOLDER FILE
    case "$1 $2" in
    'shared shared/'* | 'reader shared/'* | 'reader reader/'* | 'generators shared/'* | 'generators generators/'*) ;;
    'tuned shared/'* | 'tuned tuned/'*) ;;
    'make shared/'* | 'make reader/'* | 'make generators/'*) ;;
    'tests shared/'* | 'tests reader/'* | 'tests tuned/'* | 'tests generators/'* | 'tests tests/'* | 'tests probe.h' | 'tests ../host/s57loader.h') ;;
    'speed shared/'* | 'speed reader/'* | 'speed tuned/'* | 'speed generators/'* | 'speed speed/'* | 'speed probe.h' | 'speed ../host/s57loader.h') ;;
    'fuzz shared/'* | 'fuzz reader/'* | 'fuzz tuned/'* | 'fuzz generators/'* | 'fuzz tests/'* | 'fuzz fuzz/'* | 'fuzz probe.h' | 'fuzz ../host/s57loader.h') ;;
    *) return 1 ;;
    esac
}

# Pairs of a file and one that it uses: each is allowed, and together they have no circle.
look_at() { # HOW PAIRS
    [ -s "$2" ] || { echo "$1: nothing found"; failed=$((failed + 1)); }
    while read -r user used; do
        if allowed "${user%%/*}" "$used"; then
            passed=$((passed + 1))
        else
            echo "$1: $user must not use $used"
            failed=$((failed + 1))
        fi
    done <"$2"
    if tsort "$2" >/dev/null 2>"$dir/circle"; then
        passed=$((passed + 1))
    else
        echo "$1: a circle:" && sed -n 's|^tsort: \([^ ]*\)$|    \1|p' "$dir/circle"
        failed=$((failed + 1))
    fi
}

# ---- includes: the path is seen from the file's own folder
grep -o '^ *# *include *"[^"]*"' ./*/*.c ./*/*.h ./*.h | sed -e 's|^\./||' -e 's|: *# *include *"| |' -e 's|"$||' | while read -r user used; do
    echo "$user $(realpath -m --relative-to=. "$(dirname "$user")/$used")"
done | sort -u >"$dir/includes"
look_at includes "$dir/includes"

# ---- functions and variables
(cd "$objects" && nm -A -g --defined-only ./*/*.o) | sed -n 's|^\./\([^:]*\)\.o:.* \([^ ]*\)$|\2 \1.c|p' | sort -k 1,1 >"$dir/defined"
(cd "$objects" && nm -A -u ./*/*.o) | sed -n 's|^\./\([^:]*\)\.o:.* \([^ ]*\)$|\2 \1.c|p' | sort -k 1,1 >"$dir/wanted"
join "$dir/wanted" "$dir/defined" | cut -d ' ' -f 2,3 | sort -u >"$dir/uses"
look_at functions "$dir/uses"

echo "$passed passed, $failed failed"
[ "$failed" -eq 0 ]
