#!/usr/bin/env bash
# Compares what `find`, `explain` and `gen` write, and their statuses, with files of cases: `bench/find_cases.sh FILE..`,
# outside the gate. It wants `rt` on the path and python3. The status is 1 where a case differs. Cases are run side by side,
# as many as there are processors.
#
# A case is a block of lines, with an empty line after it; lines that begin with # are comments. Images and descriptions
# that a case names lie beside its file or in the folder above. Three forms are read:
#   searches   `case N BASE # TEXT` (BASE.img with BASE.toml), `patch ADDRESS BYTES`, `cut LENGTH`, `toml OLD => NEW`,
#              `find STATUS LINE`, and `explain LINE` for each line of `explain IMAGE CONFIG`. With status 0 LINE is what
#              `check` and `explain` print of the certificate that `find` writes, and after it `digest=` and the SHA-256 of it
#   variants   `variant NAME` or `case NAME`, `of VARIANT` (at first FILE.img with FILE.toml), `image OFFSET BYTES`,
#              `cut LENGTH`, `toml OLD => NEW`, `made` with digits of both files' SHA-256, `run find IMAGE CONFIG` or
#              `run check IMAGE CONFIG CERT` (the certificate that `find` writes), `status N`, `out LINE`, or `bytes LENGTH
#              DIGEST` of the certificate; a case that runs another mode is passed over
#   generated  a line `gen WORDS -> STATUS LINE`; with status 2 it is the usage line, which isn't written there
set -euo pipefail
top="$(cd "$(dirname "$0")/.." && pwd)"
work="$(mktemp -d)"
trap 'rm -rf "$work"' EXIT
[ $# -ge 1 ] || { echo "usage: bench/find_cases.sh FILE.." >&2; exit 2; }

# Without words the program prints its usage; where it isn't built, or a source is newer, it is built first.
"$top/entrycert" >/dev/null || [ $? -eq 2 ]

cat >"$work/compare.py" <<'PY'
import concurrent.futures, hashlib, os, re, subprocess, sys, tempfile

PROGRAM, WORK = sys.argv[1:3]
LOAD, HEADER = 0xffffffff81000000, 16


def read(folder, name):
    for place in (folder, os.path.dirname(folder)):
        path = os.path.join(place, name)
        if os.path.exists(path):
            return open(path, "rb").read()
    sys.exit(f"no file {name} beside {folder}")


def sha256(data):
    return hashlib.sha256(data).hexdigest()


def run(words, cwd):
    end = subprocess.run([PROGRAM, *words], cwd=cwd, capture_output=True)
    return end.returncode, end.stdout


def difference(words, found, due):
    if found == due:
        return []
    return [f"{' '.join(words)}: status {found[0]}, {found[1][:200]!r} and not status {due[0]}, {due[1][:200]!r}"]


def as_text(lines):
    return b"".join(line.encode() + b"\n" for line in lines)


# A certificate by its digest, and by its length where that is known.
def described(cert, with_length):
    return f"{len(cert)} bytes {sha256(cert)}".encode() if with_length else sha256(cert).encode()


class Block:
    def __init__(self, folder, variants):
        self.folder, self.variants = folder, variants
        self.name = self.image = self.config = None
        self.is_variant, self.words, self.status, self.cert = False, None, None, None
        self.lines, self.explained = [], []

    def case(self, rest):
        self.name = rest
        search = re.fullmatch(r"(\d+) (\S+) # .*", rest)
        if search:
            self.of(search[2])

    def variant(self, rest):
        self.name, self.is_variant = rest, True

    def of(self, rest):
        if rest not in self.variants:
            self.variants[rest] = read(self.folder, rest + ".img"), read(self.folder, rest + ".toml")
        self.image, self.config = self.variants[rest]

    def put(self, at, digits):
        new = bytes.fromhex(digits)
        self.image = (self.image + bytes(max(0, at - len(self.image))))[:at] + new + self.image[at + len(new):]

    def patch(self, rest):
        at, digits = rest.split(" ")
        self.put(HEADER + int(at, 0) - LOAD, digits)

    def image_is(self, rest):
        at, digits = rest.split(" ")
        self.put(int(at, 0), digits)

    def cut(self, rest):
        self.image = self.image[:int(rest)]

    def toml(self, rest):
        old, new = (text.replace("\\n", "\n").encode() for text in rest.split(" => ", 1))
        if self.config.count(old) != 1:
            sys.exit(f"{self.name}: its old text stands there {self.config.count(old)} times")
        self.config = self.config.replace(old, new)

    def made(self, rest):
        if rest.split(" ") != [sha256(file)[:16] for file in (self.image, self.config)]:
            sys.exit(f"{self.name}: its files aren't those that are meant")

    def find(self, rest):
        status, line = rest.split(" ", 1)
        self.words, self.status = "search", int(status)
        accepted = re.fullmatch(r"(accepted \S+ \S+) digest=(\w+)( one=\w+)?", line)
        if accepted:
            line, self.cert = accepted[1], accepted[2]
            self.explained = [line]
        self.lines = [line]

    def explain(self, rest):
        self.explained.append(rest)

    def run(self, rest):
        self.words = rest

    def status_is(self, rest):
        self.status = int(rest)

    def out(self, rest):
        self.lines.append(rest)

    def bytes_are(self, rest):
        length, digest = rest.split(" ")
        self.cert = f"{length} bytes {digest}"

    def passed_over(self, rest):
        pass

    def is_run(self):
        return not self.is_variant and self.words in ("search", "find IMAGE CONFIG", "check IMAGE CONFIG CERT")

    def differences(self):
        with tempfile.TemporaryDirectory(dir=WORK) as folder:
            for name, file in (("image", self.image), ("config", self.config)):
                open(os.path.join(folder, name), "wb").write(file)
            status, written = run(["find", "image", "config"], folder)
            open(os.path.join(folder, "cert"), "wb").write(written)
            return list(self.compared(folder, status, written))

    def compared(self, folder, status, written):
        check, explain = ["check", "image", "config", "cert"], ["explain", "image", "config"]
        if self.words == "check IMAGE CONFIG CERT":
            yield from difference(check, run(check, folder), (self.status, as_text(self.lines)))
            return
        due = as_text(self.lines)
        if self.cert is not None:
            written, due = described(written, " " in self.cert), self.cert.encode()
        yield from difference(["find", "image", "config"], (status, written), (self.status, due))
        if self.words == "search":
            yield from difference(explain, run(explain, folder), (self.status, as_text(self.explained)))
            if self.cert is not None:
                yield from difference(check, run(check, folder), (0, as_text(self.lines)))


class Generated:
    name = "generated"

    def __init__(self, line):
        words, due = line.split(" -> ")
        self.words = words.split(" ")
        self.due = re.sub(r" one=\w+$", "", due)

    def differences(self):
        status, _, line = self.due.partition(" ")
        due = (int(status), as_text([line])) if line else run([], WORK)
        return difference(self.words, run(self.words, WORK), due)


LINES = {
    "case": "case", "variant": "variant", "of": "of", "image": "image_is", "patch": "patch", "cut": "cut",
    "toml": "toml", "made": "made", "find": "find", "explain": "explain", "run": "run", "status": "status_is",
    "out": "out", "bytes": "bytes_are", "order": "passed_over", "trace": "passed_over", "raw": "passed_over",
    "cert": "passed_over",
}


def cases(path):
    folder, variants = os.path.dirname(os.path.abspath(path)), {}
    block = Block(folder, variants)
    for line in open(path, encoding="utf-8").read().split("\n") + [""]:
        word, _, rest = line.partition(" ")
        if line.startswith("#"):
            continue
        if word == "gen":
            yield Generated(line)
        elif line and (word in LINES or block.name is not None):
            getattr(block, LINES[word])(rest)
        elif not line:
            if block.is_variant:
                variants[block.name] = block.image, block.config
            elif block.is_run():
                yield block
            block = Block(folder, variants)


def compare(paths):
    differ = 0
    with concurrent.futures.ThreadPoolExecutor(os.cpu_count()) as several:
        for path in paths:
            count = 0
            every = list(cases(path))
            for case, found in zip(every, several.map(lambda case: case.differences(), every)):
                count += 1
                differ += bool(found)
                for text in found:
                    print(f"{case.name}: {text}")
            print(f"{os.path.basename(path)}: {count} cases")
    print(f"{differ} differ")
    return differ


if __name__ == "__main__":
    sys.exit(1 if compare(sys.argv[3:]) else 0)
PY
python3 "$work/compare.py" "$top/crates/entrycert/out/entrycert" "$work" "$@"
