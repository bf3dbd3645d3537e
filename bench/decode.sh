#!/usr/bin/env bash
# How fast the decoder reads a text of 1,000,000 instructions, beside `objdump -d` of the same bytes
# (GNU binutils): instructions per second, and the ratio of the times. Both read the file once and
# whole; the time is the least of a few runs.
set -eu
top="$(cd "$(dirname "$(readlink -f "${BASH_SOURCE[0]}")")/.." && pwd)"
runs="${1:-5}"
program="$top/crates/decode_rate/out/decode_rate"
work="$(mktemp -d)"
trap 'rm -r "$work"' EXIT

# swapgs; mov rax, gs:[8]; add rsp, 8; push rax; mov rax, r8; lea rax, [rsp+16]; call; sysretq
unit='\x0f\x01\xf8\x65\x48\x8b\x04\x25\x08\x00\x00\x00\x48\x83\xc4\x08\x50\x4c\x89\xc0\x48\x8d\x44\x24\x10\xe8\x00\x00\x00\x00\x48\x0f\x07'
printf "$unit%.0s" $(seq 1000) >"$work/part"
for _ in $(seq 125); do cat "$work/part"; done >"$work/text"

[ -x "$program" ] || (cd "$top/crates/decode_rate" && rt run -- "$work/text" </dev/null >/dev/null 2>&1)

least() {
    for _ in $(seq "$runs"); do
        /usr/bin/time -f '%e' -o "$work/run" "$@" >"$work/out"
        cat "$work/run"
    done | sort -n | head -1
}

own="$(least "$program" "$work/text")"
cat "$work/out"
theirs="$(least objdump -D -b binary -m i386:x86-64 "$work/text")"
awk -v own="$own" -v theirs="$theirs" 'BEGIN {
    if (own < 0.01) own = 0.01
    printf "decode_rate  %.2f s, %.0f instructions a second\n", own, 1000000 / own
    printf "objdump -d   %.2f s\n", theirs
    printf "decode_rate is %.0f times as fast\n", theirs / own
}'
