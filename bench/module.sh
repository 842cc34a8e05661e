# shellcheck shell=sh disable=SC2154
# For bench/native.sh and bench/fuzz/run.sh, on Arm: the proved code as objects for this very machine. The toolchain compiles for x86-64 alone. So it is given a
# compiler that keeps the module it is to compile; the same compiler then compiles that module for this machine, at the same level.
# Wants `top`, the repository's top, and `out`, a folder in which modules and logs are left.

machine=$(uname -m)
command -v rt >/dev/null || PATH=$PATH:/opt/rattle/bin
kit=$(dirname "$(dirname "$(rt doc)")")
module_clang=$kit/on/$machine/toolchain/bin/clang

links() { # FROM TO NAME: links to all that is in FROM, but NAME, which is a folder or file of its own
    mkdir -p "$2"
    for part in "$1"/*; do
        [ "$(basename "$part")" = "$3" ] || ln -sfn "$part" "$2/$(basename "$part")"
    done
}

# The toolchain's folders once more, by links, but for the compiler.
link_kit() { # MODULE: where that compiler keeps what it is to compile
    rm -rf "$out/kit"
    links "$kit" "$out/kit" on
    links "$kit/on" "$out/kit/on" "$machine"
    links "$kit/on/$machine" "$out/kit/on/$machine" toolchain
    links "$kit/on/$machine/toolchain" "$out/kit/on/$machine/toolchain" bin
    links "$kit/on/$machine/toolchain/bin" "$out/kit/on/$machine/toolchain/bin" clang
    cat >"$out/kit/on/$machine/toolchain/bin/clang" <<END
#!/bin/sh
for word in "\$@"; do case \$word in *.bc) cp "\$word" "$1" ;; esac; done
exec "$module_clang" "\$@"
END
    chmod +x "$out/kit/on/$machine/toolchain/bin/clang"
}

# Makes the crate's archive, and leaves its module as CRATE.bc.
keep_module() { # CRATE
    rm -f "$out/$1.bc"
    link_kit "$out/$1.bc"
    (cd "$top" && RATTLE_HOME=$out/kit rt staticlib "$1" && [ -s "$out/$1.bc" ]) >"$out/$1.log" 2>&1 || { cat "$out/$1.log" >&2; return 1; }
}

compile_module() { # CRATE OBJECT [FLAGS..]
    module=$out/$1.bc
    object=$2
    shift 2
    "$module_clang" --target=aarch64-unknown-linux-gnu -O3 -fPIC -mllvm -trap-unreachable -Wno-override-module "$@" -x ir -c "$module" -o "$object" \
        2>"$out/compiler.log" || { cat "$out/compiler.log" >&2; return 1; }
}
