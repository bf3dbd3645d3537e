#!/usr/bin/env bash
# Compares what `replay` prints, and its status, with files of cases: `bench/replay_cases.sh FILE..`, outside the gate.
# It wants `rt` on the path and python3. The status is 1 where a case differs.
#
# A case is a block of lines, with an empty line after it; lines that begin with # are comments. Images and descriptions
# that a case names lie beside its file or in the folder above. Three forms of blocks are read:
#   traces        `case NAME`, `image FILE`, `patch OFFSET BYTES`, `config FILE`, pairs of `old TEXT` and `new TEXT`, each
#                 line of the trace after `| ` (after `|- ` one without its end), `status N`, each line printed after `> `
#   variants      `variant NAME` or `case NAME`, `of VARIANT` (at first FILE.img with FILE.toml), `image OFFSET BYTES`,
#                 `cut LENGTH`, `toml OLD => NEW`, `made` with digits of both files' SHA-256, `trace LINE`, `run WORDS`,
#                 `status N`, `out LINE`; a case that runs another mode is passed over
#   descriptions  `case NAME`, `base FILE` and `image FILE` (at first s1.toml and s1.img), `old`, `new`, `append TEXT`, and
#                 `-> accepted` or `-> LINE`; the trace is the one line `start`, so `turns 0` is printed where it is accepted
# In a TEXT and in a trace's line \n \r \t \\ \xHH stand for their bytes.
set -euo pipefail
top="$(cd "$(dirname "$0")/.." && pwd)"
work="$(mktemp -d)"
trap 'rm -rf "$work"' EXIT
[ $# -ge 1 ] || { echo "usage: bench/replay_cases.sh FILE.." >&2; exit 2; }

# Without words the program prints its usage; where it isn't built, or a source is newer, it is built first.
"$top/entrycert" >/dev/null || [ $? -eq 2 ]

cat >"$work/compare.py" <<'PY'
import hashlib, os, re, subprocess, sys

PROGRAM, WORK = sys.argv[1:3]
ESCAPES = {b"n": b"\n", b"r": b"\r", b"t": b"\t", b"\\": b"\\"}


def unescaped(text):
    return re.sub(rb"\\(x..|.)", lambda m: bytes([int(m[1][1:], 16)]) if len(m[1]) > 1 else ESCAPES[m[1]], text, flags=re.S)


def read(folder, name):
    for place in (folder, os.path.dirname(folder)):
        path = os.path.join(place, name)
        if os.path.exists(path):
            return open(path, "rb").read()
    sys.exit(f"no file {name} beside {folder}")


def patched(image, at, digits):
    at, new = int(at, 0), bytes.fromhex(digits.decode())
    return (image + bytes(max(0, at - len(image))))[:at] + new + image[at + len(new):]


def replaced(text, old, new, name):
    if text.count(old) != 1:
        sys.exit(f"{name}: its old text stands there {text.count(old)} times")
    return text.replace(old, new)


class Case:
    def __init__(self, folder, variants):
        self.folder, self.variants = folder, variants
        self.name = self.image = self.config = self.status = self.old = self.words = None
        self.is_variant, self.trace, self.lines = False, b"", []

    def line(self, word, rest):
        getattr(self, WORDS[word])(rest)

    def named(self, rest):
        self.name = rest.decode()

    def variant(self, rest):
        self.name, self.is_variant = rest.decode(), True

    def of(self, rest):
        name = rest.decode()
        if name not in self.variants:
            self.variants[name] = read(self.folder, name + ".img"), read(self.folder, name + ".toml")
        self.image, self.config = self.variants[name]

    def image_is(self, rest):
        words = rest.split(b" ")
        if len(words) == 2:
            self.image = patched(self.image, *words)
        else:
            self.image = read(self.folder, rest.decode())

    def patch(self, rest):
        self.image = patched(self.image, *rest.split(b" "))

    def cut(self, rest):
        self.image = self.image[:int(rest)]

    def config_is(self, rest):
        self.config = read(self.folder, rest.decode())

    def old_is(self, rest):
        self.old = unescaped(rest)

    def new(self, rest):
        self.config = replaced(self.described(), self.old, unescaped(rest), self.name)

    def toml(self, rest):
        old, new = (text.replace(b"\\n", b"\n") for text in rest.split(b" => ", 1))
        self.config = replaced(self.config, old, new, self.name)

    def append(self, rest):
        self.config = self.described() + unescaped(rest)

    def made(self, rest):
        found = [hashlib.sha256(file).hexdigest()[:16].encode() for file in (self.image, self.config)]
        if rest.split(b" ") != found:
            sys.exit(f"{self.name}: its files aren't those that are meant")

    def traced(self, rest):
        self.trace += unescaped(rest) + b"\n"

    def traced_last(self, rest):
        self.trace += unescaped(rest)

    def trace_line(self, rest):
        self.trace += rest + b"\n"

    def run(self, rest):
        self.words = rest

    def status_is(self, rest):
        self.status = int(rest)

    def printed(self, rest):
        self.lines.append(rest)

    def answered(self, rest):
        self.trace = b"start\n"
        self.config = self.described()
        self.image = read(self.folder, "s1.img") if self.image is None else self.image
        self.status, self.lines = (0, [b"turns 0"]) if rest == b"accepted" else (4, [rest])

    def passed_over(self, rest):
        pass

    def described(self):
        return read(self.folder, "s1.toml") if self.config is None else self.config

    def is_replay(self):
        return self.status is not None and self.words in (None, b"replay IMAGE CONFIG TRACE")

    def differs(self):
        for name, file in (("image", self.image), ("config", self.config), ("trace", self.trace)):
            open(os.path.join(WORK, name), "wb").write(file)
        end = subprocess.run([PROGRAM, "replay", "image", "config", "trace"], cwd=WORK, capture_output=True)
        due = b"".join(line + b"\n" for line in self.lines)
        if (end.returncode, end.stdout) == (self.status, due):
            return None
        return f"status {end.returncode} and not {self.status}, {end.stdout.decode()!r} and not {due.decode()!r}"


WORDS = {
    "case": "named", "variant": "variant", "of": "of", "image": "image_is", "patch": "patch", "cut": "cut",
    "config": "config_is", "base": "config_is", "old": "old_is", "new": "new", "toml": "toml", "append": "append",
    "made": "made", "|": "traced", "|-": "traced_last", "trace": "trace_line", "run": "run", "status": "status_is",
    ">": "printed", "out": "printed", "->": "answered", "bytes": "passed_over", "cert": "passed_over",
    "value": "passed_over",
}


def cases(path):
    folder, variants = os.path.dirname(os.path.abspath(path)), {}
    case = Case(folder, variants)
    for line in open(path, "rb").read().split(b"\n") + [b""]:
        if line.startswith(b"#"):
            continue
        if line:
            word, _, rest = line.partition(b" ")
            case.line(word.decode(), rest)
            continue
        if case.is_variant:
            variants[case.name] = case.image, case.config
        elif case.is_replay():
            yield case
        case = Case(folder, variants)


differ = 0
for path in sys.argv[3:]:
    count = 0
    for case in cases(path):
        count += 1
        found = case.differs()
        if found:
            differ += 1
            print(f"{case.name}: {found}")
    print(f"{os.path.basename(path)}: {count} cases")
print(f"{differ} differ")
sys.exit(1 if differ else 0)
PY
python3 "$work/compare.py" "$top/crates/entrycert/out/entrycert" "$work" "$@"
