#!/bin/bash
# Proves and builds zk_check and zk_prove, and leaves them in bin/. Prints the image id of a guest, checks a receipt under this
# id and under another one, and then 36 bytes that claim 16,777,216 input words, in 20 MB of address space: room is made for
# the words that are there alone. Runs a guest that was written in C on the words 1071 and 462, proves that run, and checks
# its receipt under the guest's image id, with its journal in a file; prints its claims; audits it against the guest's own
# run; and checks and audits the receipt with one byte changed, so that it claims one step more.
set -u
cd "$(dirname "$0")" || exit 1

log=$(mktemp)
pair=$(mktemp)
made=$(mktemp)
journal=$(mktemp)
trap 'rm -f "$log" "$pair" "$made" "$journal"' EXIT

# Prints a command, runs it, and fails where its status isn't the one that is wanted.
show() {
    local wanted=$1
    shift
    printf '\n$ %s\n' "$*"
    "$@"
    local status=$?
    printf '(status %s)\n' "$status"
    [ "$status" = "$wanted" ] || exit 1
}

# Builds a program, whose crates are proved, and runs it once on words of one or none of its commands.
build() {
    (cd "$copy/crates/$1" && rt run -- id halts_7.elf) >"$log" 2>&1
    [ -x "$copy/crates/$1/out/$1" ] || { cat "$log"; exit 1; }
    cp "$copy/crates/$1/out/$1" bin/ || exit 1
}

# The crates without those of cases, on which no program stands: a copy, of which an earlier run's proofs are kept.
copy=out/demo
mkdir -p "$copy"
rm -rf "$copy"/crates/*/{src,specs,proofs,data}
tar -c --exclude=out --exclude=crates/zk_rows --exclude=crates/layer_tests crates HANDLES | tar -x -C "$copy" || exit 1
grep -Ev '^(zk_rows|layer_tests):' crates.txt >"$copy/crates.txt"

printf '$ rt all check --jobs %s\n' "$(nproc)"
(cd "$copy" && rt all check --jobs "$(nproc)") 2>&1 | tee "$log" | while read -r word name _; do
    case $word in
        crate) crate=${name%:} ;;
        logic=proved) echo "proved $crate" ;;
    esac
done
[ "${PIPESTATUS[0]}" = 0 ] || { tail -n 40 "$log"; exit 1; }
mkdir -p bin
build zk_check
build zk_prove

data=crates/zk_check/data
receipt=$data/halts_7.receipt
elf=$data/halts_7.elf
id=c4228a6f22f9441888bc855f0f0f64a5460ee1e92971478cc24068c3b8172aac
other=0000000000000000000000000000000000000000000000000000000000000000

show 0 bin/zk_check id "$elf"
show 0 bin/zk_check check "$receipt" "$id"
show 1 bin/zk_check check "$receipt" "$other"
(ulimit -v 20000; show 1 bin/zk_check check "$data/claims.receipt" "$id") || exit 1

guest=examples/guests/gcd.elf
printf '\057\004\000\000\316\001\000\000' >"$pair"
show 0 bin/zk_prove exec "$guest" "$pair" 1000
show 1 bin/zk_prove exec "$guest" "$pair" 10
show 0 bin/zk_prove prove "$guest" "$pair" "$made"
show 0 bin/zk_check id "$guest"
id=$(bin/zk_check id "$guest" | cut -d ' ' -f 2)
show 0 bin/zk_check check "$made" "$id" "$journal"
show 0 od -An -td4 "$journal"
show 0 bin/zk_check inspect "$made"
show 0 bin/zk_check audit "$made" 0 "$guest"
show 1 bin/zk_check audit "$made" 0 "$elf"

# The number of steps of the first seal stands at byte 20.
printf '\041' | dd of="$made" bs=1 seek=20 conv=notrunc 2>/dev/null
show 1 bin/zk_check check "$made" "$id"
show 1 bin/zk_check audit "$made" 0 "$guest"
