#!/usr/bin/env bash
# Compares what `check` and `upgrade` write, and their statuses, with files of cases: `bench/cert_cases.sh FILE..`, outside
# the gate. It wants `rt` on the path and python3. The status is 1 where a case differs.
#
# A case is a line; lines of other modes, and those over generated inputs, are passed over. Files that a case names lie
# beside the file of cases or in the folder above; NAME.gz is packed by gzip. Two forms of lines are read:
#   `file BASE EDITS -> STATUS LINE`  `check` with BASE.img, BASE.toml and the bytes of BASE.cert, changed by `put AT HEX`,
#                                     `cut LENGTH`, `add HEX`, `ins AT HEX` and `del AT COUNT`, with ` ; ` between them
#   `edit BASE OPS -> STATUS LINE`    the same where OPS change the certificate that BASE.cert spells in version 1: `digest`,
#                                     `stacks`, `user`, `sum`, `drop`, `add`, `node`, `out`, `new`, as the file's head tells
#                                     `toml NAME OLD => NEW` tells that NAME is s0 with another text in its description, and
#                                     mix has the files of s0
#   `check FILE EDITS -> STATUS TEXT` `check` with the image and the description of FILE's name, and its bytes changed by
#                                     `set AT HEX`, `put AT HEX` (before AT), `drop AT COUNT`, `cut LENGTH`, `add HEX`; `upgrade` in the
#                                     same way; what is written is TEXT, or so many `bytes` with this SHA-256
set -euo pipefail
top="$(cd "$(dirname "$0")/.." && pwd)"
work="$(mktemp -d)"
trap 'rm -rf "$work"' EXIT
[ $# -ge 1 ] || { echo "usage: bench/cert_cases.sh FILE.." >&2; exit 2; }

# Without words the program prints its usage; where it isn't built, or a source is newer, it is built first.
"$top/entrycert" >/dev/null || [ $? -eq 2 ]

cat >"$work/compare.py" <<'PY'
import gzip, hashlib, os, re, struct, subprocess, sys, tomllib

REGISTERS = "rax rcx rdx rbx rsp rbp rsi rdi r8 r9 r10 r11 r12 r13 r14 r15".split()
NONE = 2**64 - 1
ALL_STACKS = 2**17 - 1
TOP = ("plain", None), 0, 0, ALL_STACKS


def file_of(folder, name):
    for place in (folder, os.path.dirname(folder)):
        for end, opened in (("", open), (".gz", gzip.open)):
            path = os.path.join(place, name + end)
            if os.path.exists(path):
                with opened(path, "rb") as file:
                    return file.read()
    sys.exit(f"no file {name} beside {folder}")


def edited(data, edits, words):
    for edit in [] if edits == "-" else edits.split("; "):
        word, *rest = edit.split()
        word = words.get(word, word)
        if word == "add":
            data += bytes.fromhex(rest[0])
            continue
        at = int(rest[0], 0)
        if word == "replace":
            new = bytes.fromhex(rest[1])
            data = data[:at] + new + data[at + len(new):]
        elif word == "insert":
            data = data[:at] + bytes.fromhex(rest[1]) + data[at:]
        elif word == "delete":
            data = data[:at] + data[at + int(rest[1], 0):]
        elif word == "cut":
            data = data[:at]
        else:
            sys.exit(f"no edit {word}")
    return data


# ---- a certificate in version 1, as values


class Reader:
    def __init__(self, data):
        self.data, self.at = data, 0

    def take(self, form):
        values = struct.unpack_from("<" + form, self.data, self.at)
        self.at += struct.calcsize("<" + form)
        return values[0] if len(values) == 1 else values

    def value(self):
        tag = self.take("B")
        symbol = [lambda: ("plain", None), lambda: ("base", self.take("q")), lambda: ("entry", self.take("B")),
                  lambda: ("user", None)][tag]()
        return symbol, *self.take("QQI")

    def slots(self):
        return {self.take("H"): self.value() for _ in range(self.take("H"))}

    def floor(self):
        return self.take("Q") if self.take("B") == 0 else "base"

    def state(self, stacks):
        regs = [self.value() for _ in range(17)]
        spaces = list(self.take("5B"))
        return {"regs": regs, "spaces": spaces, "floors": [self.floor() for _ in range(stacks)], "slots": self.slots()}

    def key(self):
        return self.take("7BQ")

    def context(self):
        return {"key": self.key(), "summary": list(self.take("IQ3B"))}

    def node(self, stacks):
        return {"at": self.take("IQB"), "state": self.state(stacks)}

    def certificate(self):
        assert self.take("8s") == b"ENTRYCRT" and self.take("I") == 1
        cert = {"image": self.take("32s"), "config": self.take("32s"), "stacks": self.take("B")}
        cert["user"] = {"latches": list(self.take("BB")), "slots": self.slots()}
        cert["contexts"] = [self.context() for _ in range(self.take("I"))]
        cert["nodes"] = [self.node(cert["stacks"]) for _ in range(self.take("I"))]
        assert self.at == len(self.data)
        return cert


def value_bytes(value):
    (symbol, part), zeros, ones, stacks = value
    head = {"plain": lambda: b"\0", "base": lambda: struct.pack("<Bq", 1, part),
            "entry": lambda: struct.pack("<BB", 2, part), "user": lambda: b"\3"}[symbol]()
    return head + struct.pack("<QQI", zeros, ones, stacks)


def slots_bytes(slots):
    kept = sorted((i, v) for i, v in slots.items() if v != TOP)
    return struct.pack("<H", len(kept)) + b"".join(struct.pack("<H", i) + value_bytes(v) for i, v in kept)


def floor_bytes(floor):
    return b"\1" if floor == "base" else struct.pack("<BQ", 0, floor)


def state_bytes(state, stacks):
    floors = (state["floors"] + [NONE] * stacks)[:stacks]
    return (b"".join(map(value_bytes, state["regs"])) + bytes(state["spaces"])
            + b"".join(map(floor_bytes, floors)) + slots_bytes(state["slots"]))


def cert_bytes(cert):
    user = bytes(cert["user"]["latches"]) + slots_bytes(cert["user"]["slots"])
    contexts = [struct.pack("<7BQ", *c["key"]) + struct.pack("<IQ3B", *c["summary"]) for c in cert["contexts"]]
    nodes = [struct.pack("<IQB", *n["at"]) + state_bytes(n["state"], cert["stacks"])
             for n in sorted(cert["nodes"], key=lambda n: n["at"])]
    return b"".join([b"ENTRYCRT\1\0\0\0", cert["image"], cert["config"], bytes([cert["stacks"]]), user,
                     struct.pack("<I", len(contexts)), *contexts, struct.pack("<I", len(nodes)), *nodes])


# ---- changes of a certificate


def stacks_of(config):
    regions = [r for r in tomllib.loads(config.decode())["region"] if r["kind"] == "stack"]
    return [(int(r["at"], 0), int(r["at"], 0) + int(r["size"], 0)) for r in regions]


class Changes:
    def __init__(self, cert, config):
        self.cert, self.stacks = cert, stacks_of(config)

    def value(self, text):
        if text == "top":
            return TOP
        if text.startswith("="):
            number = int(text[1:], 0)
            place = [i for i, (start, end) in enumerate(self.stacks) if start <= number < end] or [16]
            return ("plain", None), NONE ^ number, number, 1 << place[0]
        symbol, *parts = text.split(":")
        found = {p[0]: int(p[1:], 0) for p in parts}
        if symbol == "plain":
            meant = "plain", None
        elif symbol == "ugs":
            meant = "user", None
        elif symbol.startswith("e"):
            meant = "entry", int(symbol[1:])
        else:
            meant = "base", int(symbol[1:] or "0", 0)
        return meant, found.get("z", 0), found.get("o", 0), found.get("s", ALL_STACKS)

    def change_state(self, state, words):
        for word in words:
            name, text = word.split("=", 1)
            if name in REGISTERS + ["flags"]:
                state["regs"][(REGISTERS + ["flags"]).index(name)] = self.value(text)
            elif name == "gs":
                state["spaces"][0] = "KUA".index(text[0]) + 3 * "KUA".index(text[1])
            elif name == "map":
                state["spaces"][1] = "KUA".index(text)
            elif name == "latch":
                state["spaces"][2:] = ["NYA".index(c) for c in text]
            elif name[0] == "f":
                state["floors"][int(name[1:])] = text if text == "base" else NONE if text == "none" else int(text, 0)
            else:
                state["slots"][int(name[1:])] = self.value(text)

    def node_at(self, context, site):
        return next(n for n in self.cert["nodes"] if n["at"] == (int(context), *site))

    def digest(self, words):
        self.cert[words[0]] = bytes(32)

    def stacks_are(self, words):
        self.cert["stacks"] = int(words[0])

    def user(self, words):
        for word in words:
            name, text = word.split("=", 1)
            if name in ("nmi", "mcip"):
                self.cert["user"]["latches"][name == "mcip"] = "NYA".index(text)
            else:
                self.cert["user"]["slots"][int(name[1:])] = self.value(text)

    def change_summary(self, summary, words):
        for word in words:
            name, text = word.split("=", 1)
            if name == "latch":
                summary[2:] = ["NYA".index(c) for c in text]
            else:
                summary[name == "words"] = int(text, 0)

    def sum(self, words):
        self.change_summary(self.cert["contexts"][int(words[0])]["summary"], words[1:])

    def renumber(self, moved):
        for node in self.cert["nodes"]:
            node["at"] = (moved(node["at"][0]), *node["at"][1:])

    def drop(self, words):
        gone = int(words[0])
        del self.cert["contexts"][gone]
        self.cert["nodes"] = [n for n in self.cert["nodes"] if n["at"][0] != gone]
        self.renumber(lambda i: i - (i > gone))

    def add(self, words):
        place, key = int(words[0]), words[1].split("/")
        entry, side = key[0][:-1], key[0][-1]
        stack = 255 if key[3] == "-" else int(key[3])
        based = key[4] != "-"
        number = (0, 0) if entry == "sys" else (1, int(entry))
        numbers = (*number, side == "k", "KUA".index(key[1][0]) + 3 * "KUA".index(key[1][1]), "KUA".index(key[2]),
                   stack, based, int(key[4], 0) if based else 0)
        summary = [0, 0, 0, 0, 0]
        self.change_summary(summary, words[2:])
        self.renumber(lambda i: i + (i >= place))
        self.cert["contexts"].insert(place, {"key": numbers, "summary": summary})

    def node(self, words):
        site, rest = site_of(words[1:])
        self.change_state(self.node_at(words[0], site)["state"], rest)

    def out(self, words):
        self.cert["nodes"].remove(self.node_at(words[0], site_of(words[1:])[0]))

    def new(self, words):
        site, rest = site_of(words[1:])
        assert rest[0] == "="
        of, rest = rest[1], rest[2:]
        from_site, rest = site_of(rest)
        state = self.node_at(of, from_site)["state"]
        copy = {name: part.copy() for name, part in state.items()}
        self.change_state(copy, rest)
        self.cert["nodes"].append({"at": (int(words[0]), *site), "state": copy})


def site_of(words):
    inside = len(words) > 1 and words[1] == "body"
    return (int(words[0], 0), int(inside)), words[1 + inside:]


OPS = {"stacks": "stacks_are"}
FILE_EDITS = {"put": "replace", "ins": "insert", "del": "delete"}
BYTE_EDITS = {"set": "replace", "put": "insert", "drop": "delete"}


def changed(data, config, ops):
    changes = Changes(Reader(data).certificate(), config)
    for op in ops.split(" ; "):
        word, *rest = op.split()
        getattr(changes, OPS.get(word, word))(rest)
    return cert_bytes(changes.cert)


# ---- cases


class Case:
    def __init__(self, name, mode, inputs, cert, due):
        self.name, self.mode, self.inputs, self.cert, self.due = name, mode, inputs, cert, due

    def is_met(self, status, written):
        wanted, text = self.due.split(" ", 1)
        if text.startswith("bytes "):
            _, length, digest = text.split()
            found = len(written) == int(length) and hashlib.sha256(written).hexdigest() == digest
        else:
            found = written == text.encode() + b"\n"
        return found and status == int(wanted)


def inputs_of(folder, name, variants):
    if name in variants:
        return variants[name]
    return file_of(folder, name + ".img"), file_of(folder, name + ".toml")


def cases(path):
    folder, variants = os.path.dirname(os.path.abspath(path)), {}
    for line in open(path, encoding="utf-8").read().splitlines():
        prefixes = re.match(r"# every proper prefix of (\S+), of n bytes from 0 to \d+: 5 bad certificate 3 Short at n", line)
        if prefixes:
            data = file_of(folder, prefixes[1])
            for n in range(len(data)):
                yield Case(f"{prefixes[1]} cut {n}", "upgrade", None, data[:n], f"5 bad certificate 3 Short at {n}")
        if not line or line.startswith("#"):
            continue
        word, rest = line.split(" ", 1)
        if word == "toml":
            name, text = rest.split(" ", 1)
            old, new = (part.replace("\\n", "\n").encode() for part in text.split(" => ", 1))
            image, config = inputs_of(folder, "s0", variants)
            assert config.count(old) == 1
            variants[name] = image, config.replace(old, new)
        elif word in ("file", "edit"):
            base, rest = rest.split(" ", 1)
            changes, due = rest.split(" -> ", 1)
            inputs = inputs_of(folder, "s0" if base == "mix" else base, variants)
            data = file_of(folder, base + ".cert")
            data = edited(data, changes, FILE_EDITS) if word == "file" else changed(data, inputs[1], changes)
            yield Case(line, "check", inputs, data, due.split(" # ")[0])
        elif word == "upgrade" or (word == "check" and not rest.startswith("gen_")):
            name, rest = rest.split(" ", 1)
            changes, due = rest.split(" -> ", 1)
            base = name.split(".")[0]
            inputs = inputs_of(folder, "s0" if re.fullmatch(r"t\d", base) else base, variants) if word == "check" else None
            yield Case(line, word, inputs, edited(file_of(folder, name), changes, BYTE_EDITS), due)


def run(program, work, case):
    for name, file in zip(("image", "config"), case.inputs or ()):
        open(os.path.join(work, name), "wb").write(file)
    open(os.path.join(work, "cert"), "wb").write(case.cert)
    words = ["check", "image", "config", "cert"] if case.mode == "check" else ["upgrade", "cert"]
    end = subprocess.run([program, *words], cwd=work, capture_output=True)
    return end.returncode, end.stdout


def compare(program, work, paths):
    differ = 0
    for path in paths:
        count = 0
        for case in cases(path):
            count += 1
            status, written = run(program, work, case)
            if not case.is_met(status, written):
                differ += 1
                print(f"{case.name}: status {status}, {written[:200]!r}")
        print(f"{os.path.basename(path)}: {count} cases")
    print(f"{differ} differ")
    return differ


if __name__ == "__main__":
    sys.exit(1 if compare(sys.argv[1], sys.argv[2], sys.argv[3:]) else 0)
PY
python3 "$work/compare.py" "$top/crates/entrycert/out/entrycert" "$work" "$@"
