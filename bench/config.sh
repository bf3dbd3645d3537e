#!/usr/bin/env bash
# How long the largest admitted description takes to read: 1 MiB with 64 regions, 255 gates, 256 handlers and 32 words,
# beside a quarter of it and beside Python's tomllib on the same text.
# Usage: bench/config.sh [RUNS]. It wants `rt` on the path and python3.
# On four processors of a virtual machine: the whole 0.01 s at a peak of 3.4 MiB, tomllib 0.39 s; a quarter of it is below
# the clock's hundredth.
set -euo pipefail
runs="${1:-5}"
top="$(cd "$(dirname "$0")/.." && pwd)"
work="$(mktemp -d)"
trap 'rm -rf "$work"' EXIT

python3 - "$work" <<'PY'
import struct, sys
work = sys.argv[1]
open(work + "/image", "wb").write(b"ENTRYRAW" + struct.pack("<Q", 0xffffffff81000000) + b"\x90")

def description(size):
    base = 0xffffffff90000000
    lines = ["version = 1", "region = ["]
    lines.append(' {name="area", at="0xffffffff82000000", size="0x3000", kind="area", write=true},')
    for i in range(63):
        lines.append(' {name="r%d", at="0x%x", size="0x1000", kind="data", write=true},' % (i, base + i * 0x1000))
    lines += ["]", "gate = ["]
    for v in [v for v in range(256) if v != 8]:
        lines.append(' {vector=%d, entry="0x%x"},' % (v, 0xffffffff81000000 + v * 16))
    lines += ["]", "handler = ["]
    for i in range(256):
        lines.append(' {entry="0x%x", stack=2048, events=["irq","debug","fault"], after_if="off", returns=true, frame=8},' % (0xffffffff81800000 + i * 16))
    lines += ["]", "word = ["]
    for i in range(32):
        lines.append(' {at="0x%x", value="0x0"},' % (0xffffffff82002800 + i * 8))
    lines += ["]", "[cpu]", 'kernel_gs = "0xffffffff82002000"', 'kernel_cr3 = "0x1000000"', 'user_cr3 = "0x1001000"',
        'idt = "0xffffffff82000000"', 'gdt = "0xffffffff82001000"', 'tss = "0xffffffff82002000"',
        'syscall = "0xffffffff81000000"', 'fmask = "0x47700"', "star_kernel = 16", "star_user = 35",
        "user_gs_writes = true", 'rsp0 = "0x0"', "ist = [" + ", ".join(['"0x0"'] * 7) + "]", ""]
    text = "\n".join(lines)
    filler = "# " + "x" * 77 + "\n"
    text += filler * ((size - len(text)) // len(filler))
    return text + "#" * (size - len(text) - 1) + "\n"

for name, size in (("whole", 1 << 20), ("quarter", 1 << 18)):
    text = description(size)
    assert len(text) == size
    open(work + "/" + name, "w").write(text)
    open(work + "/" + name + ".cases", "w").write("case %s\nbase %s\nimage image\n-> accepted\n" % (name, name))
PY

program="$top/crates/bench_vectors/out/bench_vectors"
[ -x "$program" ] || (cd "$top/crates/bench_vectors" && rt run -- config "$work/whole.cases" </dev/null >/dev/null 2>&1)
least() {
    for _ in $(seq "$runs"); do
        /usr/bin/time -f '%e %M' -o "$work/run" "$@" >"$work/out"
        cat "$work/run"
    done | sort -n | head -1
}
for name in whole quarter; do
    read -r seconds peak < <(least "$program" config "$work/$name.cases")
    echo "$name: $(cat "$work/out"), $seconds s, peak $peak KiB"
    read -r seconds peak < <(least python3 -c 'import sys, tomllib; tomllib.load(open(sys.argv[1], "rb"))' "$work/$name")
    echo "$name: tomllib $seconds s, peak $peak KiB"
done
