#!/usr/bin/env bash
# Reads real ELF files with image_info: `bench/vmlinux.sh [FILE [RUNS]]`, outside the gate.
#
# First the output of GNU ld for a link script of three sections, where `as`, `ld` and `nm` are
# installed: every defined symbol is found at the address that `nm` prints. Then FILE, say a
# kernel's vmlinux: its segments and kept symbols and its named symbols against nm's, and the least
# time of a few runs beside sha256sum's, their ratio, and both peaks of memory. A file in which nm
# finds no symbol is refused with status 1: there is nothing to compare. image_info is built first
# where a source is newer.
set -eu
top=$(cd "$(dirname "$0")/.." && pwd)
tool=$top/crates/image_info/out/image_info
work=$(mktemp -d)
trap 'rm -rf "$work"' EXIT

(cd "$top/crates/image_info" && rt run -- data/small.elf </dev/null >"$work/built" 2>&1) || {
    cat "$work/built" >&2
    echo "image_info wasn't built" >&2
    exit 1
}

# The first address of each name that nm lists in the file's order, undefined ones left out.
expected() {
    nm -p "$1" | awk '$2 != "U" && $2 != "w" && NF == 3 && length($3) <= 128 && !seen[$3]++ {print $1, $3}'
}

compare() {
    expected "$1" >"$work/expected"
    [ -s "$work/expected" ] || {
        echo "$1: nm finds no symbol in it; nothing was compared" >&2
        exit 1
    }
    cut -d' ' -f2 "$work/expected" | "$tool" "$1" >"$work/found"
    head -2 "$work/found"
    tail -n +3 "$work/found" | diff "$work/expected" - >"$work/diff" && echo "all $(wc -l <"$work/expected") names as nm has them" || {
        echo "names that differ from nm's:"
        head -20 "$work/diff"
        exit 1
    }
}

if command -v as >/dev/null && command -v ld >/dev/null && command -v nm >/dev/null; then
    cat >"$work/link.lds" <<'LDS'
SECTIONS {
    . = 0xffffffff81000000;
    .text : { *(.text) }
    . = 0xffffffff81200000;
    .data : { *(.data) }
    . = 0xffffffff81400000;
    .bss : { *(.bss) }
}
LDS
    cat >"$work/entry.s" <<'ASM'
    .text
    .globl entry, entry_end
entry:
    swapgs
    sysretq
entry_end:
local:
    nop
    .data
    .globl table
table: .quad entry, local
    .bss
    .globl stack
stack: .skip 4096
ASM
    as --64 -o "$work/entry.o" "$work/entry.s"
    ld -m elf_x86_64 -T "$work/link.lds" -o "$work/entry.elf" "$work/entry.o"
    echo "ld's output:"
    compare "$work/entry.elf"
fi

[ $# -ge 1 ] || exit 0
compare "$1"

# The least wall time in seconds and the peak memory in KiB of the runs of a command.
measure() {
    for _ in $(seq "${RUNS:-5}"); do
        /usr/bin/time -f '%e %M' -o "$work/run" "$@" >/dev/null </dev/null
        cat "$work/run"
    done | sort -n | awk 'NR == 1 { least = $1 } $2 > peak { peak = $2 } END { print least, peak }'
}

RUNS="${2:-5}"
size="$(stat -c %s "$1")"
read -r own own_peak < <(measure "$tool" "$1")
read -r sum sum_peak < <(measure sha256sum "$1")
awk -v own="$own" -v sum="$sum" -v own_peak="$own_peak" -v sum_peak="$sum_peak" -v size="$size" 'BEGIN {
    if (sum < 0.01) sum = 0.01
    printf "the file    %d bytes\n", size
    printf "image_info  %.2f s, peak %.1f MiB, %.2f times the file\n", own, own_peak / 1024, own_peak * 1024 / size
    printf "sha256sum   %.2f s, peak %.1f MiB\n", sum, sum_peak / 1024
    printf "image_info takes %.2f times as long as sha256sum\n", own / sum
}'
