#!/bin/bash
# Prints all that README tells of time and memory, once `rt run` has built zk_rows, zk_prove and zk_check: what the rows of
# measure.rows take, in microseconds; of ten million steps of a guest in C, the processor instructions a step of the run,
# of its proof in 70 segments and of the check and the audit of its receipt, as callgrind counts them; and the most memory
# that a run of a million steps and its proof in 71 segments hold, over a memory of 20,000 stored pages of 1 KiB.
set -eu
cd "$(dirname "$0")"

prove=../../zk_prove/out/zk_prove
check=../../zk_check/out/zk_check
loop=../../../examples/guests/loop.elf
id=65177bfa9c22fad6123f792c58ffd20906969ffb431f6ce8428d0ff0ae05d659
work=$(mktemp -d)
trap 'rm -rf "$work"' EXIT
: >"$work/none"

../out/zk_rows measure.rows

# How many processor instructions a command takes for each of ten million steps.
count() {
    valgrind --tool=callgrind --callgrind-out-file=/dev/null "$@" 2>&1 >/dev/null |
        awk -v name="$2" '/Collected/ { printf "%s %.0f instructions a step\n", name, $4 / 10000000 }'
}
count "$prove" exec "$loop" "$work/none" 16777216
count "$prove" prove "$loop" "$work/none" "$work/receipt" 143000 1024 16777216 0
count "$check" check "$work/receipt" "$id"
count "$check" audit "$work/receipt" 0 "$loop"

# The ELF file of the guest of measure.rows, in 20,000 pages that are loaded.
bytes() { printf '%b' "$(sed 's/../\\x&/g' <<<"${1// /}")"; }
{
    bytes '7f454c46 01010100 00000000 00000000 0200f300 01000000 00100000 34000000 00000000 00000000'
    bytes '34002000 01000000 00000000 01000000 54000000 00100000 00100000 00803801 00803801 07000000'
    bytes '04000000 b7130300 83220040 93821200 23205040 9383f3ff e39803fe 93080000 13050000 73000000'
    head -c 20479964 /dev/zero | tr '\0' '\1'
} >"$work/many.elf"

# The most memory that a command holds.
peak() { /usr/bin/time -f "$2 %M KiB" "$@" >/dev/null; }
peak "$prove" exec "$work/many.elf" "$work/none" 16777216
peak "$prove" prove "$work/many.elf" "$work/none" "$work/receipt" 14300 1024 16777216 0
