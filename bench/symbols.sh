#!/usr/bin/env bash
# Files made to make the reading of symbols slow or large: `bench/symbols.sh`, outside the gate, with python3. For each
# file it prints its size, the processor time in which image_info reads it, counts its symbols and finds two names (the
# last symbol's and one that no symbol has), and the peak memory as a multiple of the file.
#
#   short     1,700,000 symbols with names of one to seven letters, in one table
#   prefixes  2,400,000 symbols with 65,536 names that differ after 120 bytes, shuffled: the longest comparisons
#   hundred   100 symbol tables over one range of 61 MB
#   shifted   20 tables over one range, each a byte after the one before and with a string table of its own
#   headers   60,000 tables over one range of 240 kB, in a file that is mostly section headers
#
# On a virtual machine with other work on its processors, on which sha256sum of the second file takes 0.33 s:
#
#   short      50.5 MB   0.83 s  1.92 times the file
#   prefixes   65.9 MB   9.96 s  1.87 times the file
#   hundred    61.0 MB   7.36 s  1.69 times the file
#   shifted    57.6 MB   0.68 s  1.16 times the file
#   headers     4.1 MB  11.04 s  2.88 times the file
#
# The tables of the last three have 254 million, 20 million and 600 million entries together.
set -eu
top="$(cd "$(dirname "$(readlink -f "${BASH_SOURCE[0]}")")/.." && pwd)"
program="$top/crates/image_info/out/image_info"
work="$(mktemp -d)"
trap 'rm -r "$work"' EXIT

(cd "$top/crates/image_info" && rt run -- data/small.elf </dev/null >/dev/null)

cat >"$work/make.py" <<'PYTHON'
import random, struct, sys

def section(kind, offset, size, link):
    return struct.pack('<IIQQQQIIQQ', 0, kind, 0, 0, offset, size, link, 0, 8, 24)

def symbol(name, value):
    return struct.pack('<IBBHQQ', name, 0, 0, 1, value, 0)

def image(body, sections):
    headers = b''.join([section(0, 0, 0, 0)] + sections)
    elf = b'\x7fELF\x02\x01\x01' + bytes(9)
    elf += struct.pack('<HHIQQQIHHHHHH', 2, 62, 1, 0, 0, 64 + len(body), 0, 64, 56, 0, 64, len(sections) + 1, 0)
    return elf + body + headers

def one_table(names, order):
    places, strings = {}, bytearray(1)
    for name in names:
        places[name] = len(strings)
        strings += name + b'\0'
    symbols = b''.join(symbol(places[name], i) for i, name in enumerate(order))
    return image(symbols + strings, [section(2, 64, len(symbols), 2), section(3, 64 + len(symbols), len(strings), 0)])

def short():
    letters, names, n = b'abcdefghijklmnopqrstuvwxyz', [], 1_700_000
    for i in range(n - 1):
        name = bytearray()
        while True:
            name.append(letters[i % 26])
            i //= 26
            if i == 0:
                break
            i -= 1
        names.append(bytes(name))
    return one_table(names + [b'the_last'], names + [b'the_last'])

def prefixes():
    names = [b'a' * 120 + b'%05d' % i for i in range(65536)]
    order = [random.choice(names) for _ in range(2_400_000)]
    return one_table(names + [b'the_last'], order + [b'the_last'])

def tables(count, entries, step, strings):
    text = b'\0first\0the_last\0'
    symbols = symbol(1, 1) * (entries - 1) + symbol(7, 2)
    body = symbols + bytes(24) + text * strings
    first = 64 + len(symbols) + 24
    sections = [section(2, 64 + step * i, len(symbols), 1 + count + i % strings) for i in range(count)]
    sections += [section(3, first + len(text) * i, len(text), 0) for i in range(strings)]
    return image(body, sections)

def shifted():
    # every byte is 0 or 1, so that each offset begins a symbol
    body = bytes(random.choice((0, 1)) for _ in range(24 * 1_000_000))
    text = b'\0' + b'first\0' * 50 + b'the_last\0'
    size = 1 << 25
    body += text + bytes(size - len(text))
    sections = [section(2, 64 + i, 24 * 999_999, 21 + i) for i in range(20)]
    sections += [section(3, 64 + 24_000_000, size - i, 0) for i in range(20)]
    return image(body, sections)

random.seed(1)
make = {
    'short': short,
    'prefixes': prefixes,
    'hundred': lambda: tables(100, 2_540_000, 0, 1),
    'shifted': shifted,
    'headers': lambda: tables(60_000, 10_000, 0, 1),
}
sys.stdout.buffer.write(make[sys.argv[1]]())
PYTHON

for name in short prefixes hundred shifted headers; do
    python3 "$work/make.py" "$name" >"$work/image"
    size="$(stat -c %s "$work/image")"
    printf 'the_last\nabsent\n' >"$work/names"
    /usr/bin/time -f '%U %S %M' -o "$work/run" "$program" "$work/image" <"$work/names" >"$work/out"
    read -r user system peak <"$work/run"
    awk -v name="$name" -v size="$size" -v user="$user" -v system_time="$system" -v peak="$peak" 'BEGIN {
        seconds = user + system_time
        printf "%-9s %5.1f MB %6.2f s  %.2f times the file\n", name, size / 1e6, seconds, peak * 1024 / size
    }'
    sed 's/^/    /' "$work/out"
done
