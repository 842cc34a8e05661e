#!/bin/sh
# The addresses at which blocks of the proved code begin in a program that is linked with its archives: the start of each function, where jumps lead, and what stands
# behind a jump or a return. A line an address, rising; for bench/fuzz/watch.h. The proved functions are those that have :: in their name, and the exported ones that inputs call.
# usage: bench/fuzz/blocks.sh PROGRAM
set -eu
objdump -d --no-show-raw-insn "$1" | awk '
/^[0-9a-f]+ <.*>:$/ {
    proved = $0 ~ /::|<s57_|<probe_show/
    begins = 1
    next
}
!proved || $1 !~ /:$/ { next }
{
    at = substr($1, 1, length($1) - 1)
    if (begins && $2 !~ /^(nop|data16|cs|xchg|ud2|int3)/)
        print at
    begins = $2 ~ /^(j|ret)/
    if ($2 ~ /^j/ && $0 ~ /<[^<]*(::|s57_|probe_show)[^<]*>$/)
        print $3
}' | grep -xE '[0-9a-f]+' | sort -u
