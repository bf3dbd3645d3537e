#!/usr/bin/env bash
# How the time of finding a certificate grows: `gen 7 SIZE` at sizes 1,000, 2,000, 4,000 and 6,000, and the exponent with which
# it grows in the number of nodes, from one size to the next and over all; beside it `check` of the certificate that `find`
# writes for the same files, and the peak memory for each node. Each time is the least of a few runs.
# Usage: bench/find.sh [RUNS]. It wants `rt` on the path.
set -euo pipefail
top="$(cd "$(dirname "$(readlink -f "${BASH_SOURCE[0]}")")/.." && pwd)"
runs="${1:-3}"
work="$(mktemp -d)"
trap 'rm -r "$work"' EXIT
program="$top/crates/entrycert/out/entrycert"
files="$top/crates/gen_files/out/gen_files"

# Where the programs aren't built, or a source of the first is newer, they are built first.
"$top/entrycert" >/dev/null || [ $? -eq 2 ]
[ -x "$files" ] || (cd "$top/crates/gen_files" && rt run -- 7 1 "$work/image" "$work/config" </dev/null >/dev/null 2>&1)

# Seconds and peak KiB of a command, those of its fastest run; what it writes is in `out`.
least() {
    for _ in $(seq "$runs"); do
        /usr/bin/time -f '%e %M' -o "$work/run" "$@" >"$work/out"
        cat "$work/run"
    done | sort -n | head -1
}

for size in 1000 2000 4000 6000; do
    "$files" 7 "$size" "$work/image" "$work/config" >/dev/null
    read -r seconds peak < <(least "$program" gen 7 "$size")
    line="$(cat "$work/out")"
    nodes="${line#*nodes=}"
    "$program" find "$work/image" "$work/config" >"$work/cert"
    read -r check _ < <(least "$program" check "$work/image" "$work/config" "$work/cert")
    echo "$size ${nodes%% *} $seconds $peak $check $(cat "$work/image" "$work/config" "$work/cert" | wc -c)"
done | awk '
    function exponent(n, t, m, s) { return log(s / t) / log(m / n) }
    {
        for (i = 3; i <= 5; i += 2) if ($i < 0.01) $i = 0.01
        printf "gen 7 %d: %d nodes, %.2f s, %.1f times check (%.2f s), %.1f KiB a node beside the files", $1, $2, $3, $3 / $5, $5,
            ($4 - $6 / 1024) / $2
        if (NR > 1) printf "; exponent %.2f", exponent(nodes, seconds, $2, $3)
        else { first_nodes = $2; first_seconds = $3 }
        print ""
        nodes = $2
        seconds = $3
    }
    END { printf "exponent over all %.2f\n", exponent(first_nodes, first_seconds, nodes, seconds) }'
