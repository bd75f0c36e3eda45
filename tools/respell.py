#!/usr/bin/env python3
"""Spells the repository's own definitions and laws as today's Rattle spells names.

usage: tools/respell.py            at the top of the repository, once, after the toolchain's port.py
       tools/respell.py --table    prints the table: the name after port.py, and the new one

Types and modules keep their capitals. Any other name that a file of specs/ or proofs/ declares is in snake case: `rowsFit` is `rows_fit`,
`rows-later` is `rows_later`. A dash stays where it joins the names of two definitions, as in `length-rows`. What src/ declares keeps its
name, and so does each answer of a Proof.antt, which is named after its goal. It goes by the texts: of specs/, proofs/, the clauses in
src/, and the edits in must-fail/ and wrong/.
"""
import glob
import os
import re
import sys

DECLARED = re.compile(r"^(\s*)((?:(?:pub|abbrev|unfoldable)\s+)*)(data\s+|record\s+)?([^\s(){};,.@\"«»:λ]+)((?:\s+\{[^{}]*\})*)\s+:(?=\s)")
TYPE = re.compile(r"^(\s*)((?:pub\s+)*)(data|record)\s+([^\s(){};,.]+)")
KEYWORDS = set("use mod where let in elim unfolding module open infix infixl infixr mutual data record λ".split())
TOKEN = re.compile(r"[^\s(){};,.@\"«»`]+")
CAMEL = re.compile(r"(?<=[a-z0-9'])[A-Z]")


def declared(text):
    """What a text declares: its name, whether it is a definition or a type, and whether it is a field."""
    inside = None
    for line in text.split("\n"):
        line = re.sub(r"(^|\s)--(\s.*)?$", "", line)
        if not line.strip():
            continue
        indent = len(line) - len(line.lstrip())
        if inside is not None and indent <= inside:
            inside = None
        kind = TYPE.match(line)
        if kind:
            inside = indent
            yield kind[4], True, False
            continue
        found = DECLARED.match(line)
        if found and found[4] not in KEYWORDS and not line.lstrip().startswith(("let ", "use ", "→", "(")):
            yield found[4], bool({"abbrev", "unfoldable"} & {*found[2].split()}), inside is not None


def texts():
    """The .antt files of specs/ and proofs/."""
    for pattern in ("crates/*/specs/**/*.antt", "crates/*/proofs/**/*.antt"):
        yield from sorted(glob.glob(pattern, recursive=True))


def read(path):
    with open(path, encoding="utf-8") as file:
        return file.read()


def snake(name, definitions):
    if name[:1].isupper() and "-" not in name:
        return name
    parts = name.split("-")
    cut = next((i for i in range(1, len(parts)) if "-".join(parts[:i]) in definitions and "-".join(parts[i:]) in definitions), 0)
    sides = ["_".join(parts[:cut]), "_".join(parts[cut:])] if cut else ["_".join(parts)]
    lower = lambda word: word if word[:1].isupper() else CAMEL.sub(lambda m: "_" + m[0].lower(), word)
    return "-".join("_".join(lower(word) for word in re.split("_", side)) if side.strip("_") else side for side in sides)


# Two that both are definitions or fields.
BY_HAND = {"wait-call": "waiting_call", "in-sync": "in_sync_lem", "is-in": "is_in_lem"}


def table():
    """The new names; those of fields; and the laws that have a definition's new name already, and are told from it by `_lem`."""
    names, definitions, fields = set(), set(), set()
    for path in texts():
        if os.path.basename(path) == "Proof.antt":
            continue
        for name, definition, field in declared(read(path)):
            names.add(name)
            if definition:
                definitions.add(name)
            if field:
                fields.add(name)
    words = {"length", "map", "filter", "sum", "take", "drop", "set", "any", "all", "reverse", "get_or", "sets"}
    new = {}
    for name in names:
        if not re.match(r"[A-Za-z]", name):
            continue
        turned = snake(name, definitions | words)
        if turned != name:
            new[name] = turned
    meant = {new.get(name, name) for name in definitions | fields}
    laws = names - definitions - fields
    for name in laws & {*new}:
        if new[name] in meant:
            new[name] += "_lem"
    new.update(BY_HAND)
    turned = {new[it] for it in (definitions | fields) & {*new}}
    clear = {name for name in laws if name not in new and name in turned}
    return new, fields, clear


class Turner:
    def __init__(self, new, fields, clear):
        self.new, self.fields, self.clear = new, fields, clear

    def antt(self, text, labels=()):
        mine = {it[0] for it in declared(text)} | {word for it in re.findall(r"(?m)^\s*use [^\n]*\{([^}\n]*)\}", text) for word in re.split(r"[,\s]+", it)}
        laws = self.clear & mine
        modules = {it[1] for it in re.findall(r"(?m)^\s*use (Rattle\.\S+) as ([^\s;]+)", text) if it[0].rpartition(".")[2] not in ("Tie", "Reads", "Lts", "Goals", "Given")}

        taken = {word for it in re.findall(r"(?m)^\s*use (?!Rattle\.(?!std\b|core\b))[^\s{]+\{([^}\n]*)\}", text) for word in re.split(r"[,\s]+", it)}

        def turn(m):
            word, at = m[0], m.start()
            if word in taken:
                return word
            if word in laws and not (at and text[at - 1] == "."):
                return word + "_lem"
            if word not in self.new:
                return word
            if at and text[at - 1] == ".":
                head = re.search(r"[^\s(){};,@\"«»`]*$", text[:at])[0]
                if head.startswith(("Rattle.", "package.")) or head[:-1] in modules:
                    return self.new[word]
                if "-" in word and (labels or word not in self.fields):
                    return word
                return self.new[word] if word in self.fields else word
            if word in labels and (at == 0 or text[at - 1] == "\n"):
                return word
            return self.new[word]

        return TOKEN.sub(turn, text)

    def rust(self, text):
        lines = text.split("\n")
        modules = set(re.findall(r"(?m)^\s*ghost use Rattle\.\S+ as (\w+);", text))
        for i, line in enumerate(lines):
            clause = line.lstrip().startswith(("ghost", "requires", "ensures"))

            def turn(m):
                word = m[0]
                if word not in self.new or "-" in word and not clause:
                    return word
                before = line[: m.start()]
                if not clause and "-" not in word and word[:1].isupper():
                    return word
                alias = re.search(r"(\w+)\.$", before)
                if before.endswith(".") and not re.search(r"Rattle\.[\w.]*$", before) and word not in self.fields and not (alias and alias[1] in modules):
                    return word
                return self.new[word]

            lines[i] = TOKEN.sub(turn, line)
        return "\n".join(lines)

    def edit(self, text):
        out, is_rust = [], True
        for line in text.split("\n"):
            if line.startswith("file:"):
                is_rust = line.strip().endswith(".rt")
            if line.startswith(("old:", "new:")):
                head, body = line[:4], line[4:]
                line = head + (self.rust(body) if is_rust else self.antt(body))
            out.append(line)
        return "\n".join(out)


def collisions(new, clear):
    """Where a new name already stands beside the old one in a file, under no module."""
    for path in texts():
        text = re.sub(r"(?m)(^|\s)--.*$", "", read(path))
        words = {m[0] for m in TOKEN.finditer(text) if not (m.start() and text[m.start() - 1] == ".")}
        turned = {}
        for word in words:
            turned.setdefault(new.get(word, word + "_lem" if word in clear else word), set()).add(word)
        for name, old in sorted(turned.items()):
            if len(old) > 1:
                yield path, name, sorted(old)


def main(argv):
    new, fields, clear = table()
    if argv == ["--table"]:
        for old in sorted(new):
            print(f"{old}\t{new[old]}")
        return 0
    if argv == ["--collisions"]:
        for path, name, old in collisions(new, clear):
            print(f"{path}: {' and '.join(old)} would both be {name}")
        return 0
    turner = Turner(new, fields, clear)
    changed = 0
    for path in [*texts(), *sorted(glob.glob("crates/*/src/**/*.rt", recursive=True)), *sorted(glob.glob("crates/*/must-fail/*.edit") + glob.glob("crates/*/wrong/*.edit"))]:
        text = read(path)
        if path.endswith(".rt"):
            turned = turner.rust(text)
        elif path.endswith(".edit"):
            turned = turner.edit(text)
        else:
            labels = set(re.findall(r"(?m)^(\S+) : tie\.", text)) if path.endswith("/Proof.antt") else ()
            turned = turner.antt(text, labels)
        if turned != text:
            with open(path, "w", encoding="utf-8") as file:
                file.write(turned)
            changed += 1
    print(f"respell: {len(new)} names, {changed} files")
    return 0


if __name__ == "__main__":
    raise SystemExit(main(sys.argv[1:]))
