#!/usr/bin/env bash
# How fast `entrycert replay` takes turns, and what a large trace costs: 1,000,000 turns of the syscall path of
# examples/s1, with the memory at its most for a tenth of the turns and for all; and a trace of about 16 MiB of `mem`
# lines at falling addresses, one a page, with the half of it. Times are the least of a few runs.
set -eu
top="$(cd "$(dirname "$(readlink -f "${BASH_SOURCE[0]}")")/.." && pwd)"
runs="${1:-3}"
work="$(mktemp -d)"
trap 'rm -r "$work"' EXIT
image="$top/examples/s1/image.raw"
config="$top/examples/s1/config.toml"
program="$top/crates/entrycert/out/entrycert"

# A run of so many turns: SYSCALL, twelve instructions, the handler's return, ten instructions back to user code.
turns_of() {
    awk -v n="$1" 'BEGIN {
        print "start rsp=0x7ff000"
        for (i = 0; i + 24 <= n; i += 24) print "syscall\ngo 12\nleave\ngo 10"
    }'
}

# So many pages, in each of which 32 bytes are written, at falling addresses.
pages_of() {
    awk -v n="$1" 'BEGIN {
        bytes = "5a"
        for (i = 0; i < 5; i++) bytes = bytes bytes
        print "start rsp=0x7ff000"
        for (i = 0; i < n; i++) printf "mem 0x%x %s\n", 4294967296 + (n - i) * 4096, bytes
    }'
}

least() {
    for _ in $(seq "$runs"); do
        /usr/bin/time -f '%e %M' -o "$work/run" "$program" replay "$image" "$config" "$1" >"$work/out"
        cat "$work/run"
    done | sort -n | head -1
}

"$top/entrycert" replay "$image" "$config" /dev/null >/dev/null || true
turns_of 100000 >"$work/tenth"
turns_of 1000000 >"$work/all"
pages_of 95000 >"$work/half"
pages_of 190000 >"$work/pages"
tenth="$(least "$work/tenth")"
all="$(least "$work/all")"
cat "$work/out"
half="$(least "$work/half")"
pages="$(least "$work/pages")"
awk -v tenth="$tenth" -v all="$all" -v half="$half" -v pages="$pages" 'BEGIN {
    split(tenth, t); split(all, a); split(half, h); split(pages, p)
    if (a[1] < 0.01) a[1] = 0.01
    printf "  100,000 turns  %.2f s, %d KiB\n", t[1], t[2]
    printf "1,000,000 turns  %.2f s, %d KiB, %.0f turns a second\n", a[1], a[2], 1000000 / a[1]
    printf " 95,000 pages    %.2f s, %d KiB\n", h[1], h[2]
    printf "190,000 pages    %.2f s, %d KiB\n", p[1], p[2]
}'
