# shellcheck shell=sh disable=SC2034
# For bench/build.sh, host/build.sh and host/tests.sh: sets cc, the compiler of programs that are linked with the archives of the proved code.

# Debian packages, fetched only where the command is missing.
need() { # COMMAND PACKAGE..
    wanted=$1
    shift
    command -v "$wanted" >/dev/null 2>&1 && return
    apt-get update </dev/null
    DEBIAN_FRONTEND=noninteractive apt-get install -y --no-install-recommends "$@" </dev/null
}

# The archives hold x86-64 code. On Arm the programs around them are made for x86-64 too, and static, so that the emulator needs no loader.
case $(uname -m) in
x86_64)
    need gcc gcc libc6-dev
    cc='gcc' ;;
aarch64)
    need x86_64-linux-gnu-gcc gcc-x86-64-linux-gnu libc6-dev-amd64-cross
    cc='x86_64-linux-gnu-gcc -static' ;;
*) echo "$0: neither x86-64 nor Arm" >&2; exit 2 ;;
esac
