#!/bin/sh
# Builds the guests in this folder, with clang and lld.
set -eu
cd "$(dirname "$0")"
for guest in gcd loop; do
    clang --target=riscv32-unknown-none-elf -march=rv32im -mabi=ilp32 -mno-relax -O2 -fno-unroll-loops -ffreestanding \
        -nostdlib -fuse-ld=lld -Wl,-Ttext=0x1000,-e,_start -o "$guest.elf" "$guest.c"
done
