#!/usr/bin/env bash
# `check` on a raw image of the largest admitted size, beside sha256sum of the same file: the ratio of the times and the
# peak memory. The certificate is the first example's, whose digest is another image's: the answer is `refused C1`, and
# what is measured is reading the image, its form and its digest.
# Usage: bench/read.sh [RUNS]. It wants `rt` on the path.
set -euo pipefail
top="$(cd "$(dirname "$(readlink -f "${BASH_SOURCE[0]}")")/.." && pwd)"
runs="${1:-7}"
work="$(mktemp -d)"
trap 'rm -r "$work"' EXIT
size=67108864
{
    printf 'ENTRYRAW\x00\x00\x00\x81\xff\xff\xff\xff'
    head -c $((size - 16)) /dev/urandom
} >"$work/image"
first="$top/examples/first"
words=(check "$work/image" "$first/description.toml" "$first/kernel.cert")

# Where the program isn't built, or a source is newer, it is built first.
"$top/entrycert" "${words[@]}" >"$work/answer" || [ $? -eq 1 ]
[ "$(cat "$work/answer")" = "refused C1" ] || { cat "$work/answer" >&2; exit 1; }

# The least wall time in seconds and the peak memory in KiB of the runs of a command.
measure() {
    for _ in $(seq "$runs"); do
        /usr/bin/time -q -f '%e %M' -o "$work/run" "$@" >/dev/null || true
        cat "$work/run"
    done | sort -n | awk 'NR == 1 { least = $1 } $2 > peak { peak = $2 } END { print least, peak }'
}

read -r own own_peak < <(measure "$top/crates/entrycert/out/entrycert" "${words[@]}")
read -r sum sum_peak < <(measure sha256sum "$work/image")
awk -v own="$own" -v sum="$sum" -v own_peak="$own_peak" -v sum_peak="$sum_peak" -v size="$size" 'BEGIN {
    printf "check      %.2f s, peak %.1f MiB, %.2f times the file\n", own, own_peak / 1024, own_peak * 1024 / size
    printf "sha256sum  %.2f s, peak %.1f MiB\n", sum, sum_peak / 1024
    printf "check takes %.2f times as long as sha256sum\n", own / sum
}'
