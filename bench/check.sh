#!/usr/bin/env bash
# `check` of certificates, each beside sha256sum of its three files: the times of a run, and the peak memory for each node.
# Usage: bench/check.sh [IMAGE CONFIG CERT].., by default the first example and the table that `find` makes of the generated
# input with 6,000 instructions (7,387 nodes), which should take at most four times as long as sha256sum. It wants `rt` on the
# path. A run is short, so what is measured is a hundred of each, one after the other, or ten where a run isn't short.
set -euo pipefail
top="$(cd "$(dirname "$(readlink -f "${BASH_SOURCE[0]}")")/.." && pwd)"
work="$(mktemp -d)"
trap 'rm -r "$work"' EXIT
[ $(($# % 3)) -eq 0 ] || { echo "usage: bench/check.sh [IMAGE CONFIG CERT].." >&2; exit 2; }
program="$top/crates/entrycert/out/entrycert"
files="$top/crates/gen_files/out/gen_files"

# Where the program isn't built, or a source is newer, it is built first.
"$top/entrycert" >/dev/null || [ $? -eq 2 ]

if [ $# -eq 0 ]; then
    first="$top/examples/first"
    made="$work/generated"
    [ -x "$files" ] || (cd "$top/crates/gen_files" && rt run -- 7 1 "$made.raw" "$made.toml" </dev/null >/dev/null 2>&1)
    "$files" 7 6000 "$made.raw" "$made.toml" >/dev/null
    "$program" find "$made.raw" "$made.toml" >"$made.cert"
    set -- "$first/kernel.raw" "$first/description.toml" "$first/kernel.cert" "$made.raw" "$made.toml" "$made.cert"
fi

# The milliseconds that a command takes, and the least of five measurements of it.
taken() {
    for _ in 1 2 3 4 5; do
        /usr/bin/time -f %e -o "$work/run" bash -c 'for _ in $(seq "$0"); do "$@" || [ $? -eq 1 ]; done' "$turns" "$@" >/dev/null
        cat "$work/run"
    done | sort -n | awk -v n="$turns" 'NR == 1 { print $1 * 1000 / n }'
}

while [ $# -gt 0 ]; do
    answer="$("$program" check "$1" "$2" "$3")" && status=0 || status=$?
    echo "$3: $answer"
    [ "$status" -le 1 ] || exit 1
    /usr/bin/time -q -f '%M %e' -o "$work/once" "$program" check "$1" "$2" "$3" >/dev/null || true
    read -r peak seconds <"$work/once"
    turns="$(awk -v s="$seconds" 'BEGIN { print s < 0.05 ? 100 : 10 }')"
    own="$(taken "$program" check "$1" "$2" "$3")"
    sum="$(taken sha256sum "$1" "$2" "$3")"
    awk -v own="$own" -v sum="$sum" -v peak="$peak" -v files="$(cat "$1" "$2" "$3" | wc -c)" \
        -v nodes="${answer##*=}" 'BEGIN {
        printf "  check %.1f ms, sha256sum %.1f ms, %.1f times as long; peak %d KiB", own, sum, own / sum, peak
        if (nodes + 0 > 0) printf ", %.1f KiB a node beside the files", (peak - files / 1024) / nodes
        print ""
    }'
    shift 3
done
