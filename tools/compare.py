#!/usr/bin/env python3
"""Lists what differs by more than spelling between two commits: definitions and laws, signatures, clauses, types, constants, bodies and edits.

usage: tools/compare.py OLD [NEW]    at the top of the repository; without NEW the files as they stand

Texts are compared word by word, without comments, imports and parentheses (a projection binds otherwise today: `max (p .acked) n` is `max p.acked n`).
A word may be spelled anew, if it is so wherever texts of equal length have it: words with two spellings are listed, and so are two words with one.
It sees no parenthesis, no import, no `pub`, no derive and no file that is new: a law that moved shows as gone.
Of a clause the values at entry and exit are named alike first: `now (x .entry)` of a `&mut` is `x.old`, of a `&` it is `x.now`.
"""
import collections
import difflib
import re
import subprocess
import sys

WORD = re.compile(r'"[^"]*"|\.[^\s(){};,.@"«»`⌜⌝\[\]]+|[(){};,@`⌜⌝«»\[\]]|[^\s(){};,.@"«»`⌜⌝\[\]]+|\.')
CODE = re.compile(r"\"(?:\\.|[^\"\\])*\"|'(?:\\.|[^'\\])'|\w+|[^\s\w]")
CLAUSE = re.compile(r"\b(requires|ensures)\b\*?")
NAME = re.compile(r"[A-Za-z_]\w*")


def git(*words):
    return subprocess.run(["git", *words], capture_output=True, text=True, check=True).stdout


def texts(commit):
    """The texts below crates/ of a commit, or as they stand, by path."""
    if commit is None:
        paths = git("ls-files", "-co", "--exclude-standard", "crates").split("\n")
        return {it: open(it, encoding="utf-8").read() for it in paths if it.endswith((".antt", ".rt", ".edit"))}
    paths = [it for it in git("ls-tree", "-r", "--name-only", commit, "crates").split("\n") if it.endswith((".antt", ".rt", ".edit"))]
    asked = "".join(f"{commit}:{it}\n" for it in paths).encode()
    said, at, out = subprocess.run(["git", "cat-file", "--batch"], input=asked, capture_output=True, check=True).stdout, 0, {}
    for path in paths:
        end = said.index(b"\n", at)
        size = int(said[at:end].split()[2])
        out[path] = said[end + 1 : end + 1 + size].decode()
        at = end + 2 + size
    return out


def is_law(path):
    return path.endswith(".antt") and not path.endswith(("Proof.antt", "Invariants.antt", "Answers.antt"))


def words(text):
    """The words of definitions, laws or a clause."""
    text = re.sub(r"(?m)(^|\s)--(\s.*)?$", " ", text)
    text = re.sub(r"(?m)^\s*use [^\n{]*\{[^}]*\}[^\n]*$|^\s*use .*$", "", text).replace("◌", "_")
    found = [it for it in WORD.findall(text) if it not in "⌜⌝()"]
    return [part for it in found for part in ([it.split("·")[-2], "." + it.split("·")[-1]] if "·" in it else [it])]


def values(found):
    """The words of a clause, with today's names of the values at entry and exit, and of the result."""
    result = found[1] if found[:1] == ["λ"] else None
    found, out, i = found[3:] if result else found, [], 0
    while i < len(found):
        if found[i] == "now" and i + 1 < len(found):
            when = {".entry": ".old", ".exit": ".new"}.get("".join(found[i + 2 : i + 3]))
            name = found[i + 1]
            out += ["result" if name == result else name, when or ".now"]
            i += 3 if when else 2
            continue
        out.append("result" if found[i] == result else found[i])
        i += 1
    return out


def by_loan(found, sign, kind):
    """The same, as the parameters are lent: what a `&` lends is `now`, and what a `&mut` lends is `old` in a `requires`."""
    out = list(found)
    for i, (name, when) in enumerate(zip(found, found[1:]), 1):
        if re.search(rf"\b{re.escape(name)}\s*:\s*&(?!\s*mut\b)", sign) and when == ".old":
            out[i] = ".now"
        if re.search(rf"\b{re.escape(name)}\s*:\s*&\s*mut\b", sign) and kind == "requires" and when == ".now":
            out[i] = ".old"
    return out


def blank(text):
    """The text with comments and what stands in quotes blanked, of the same length."""
    fill = lambda m: re.sub(r"[^\n]", " ", m[0])
    return re.sub(r"//[^\n]*|\"(?:\\.|[^\"\\])*\"|'(?:\\.|[^'\\\n])'", fill, text)


def closing(text, at):
    """Behind the bracket that closes the one at this place."""
    pair = {"{": "}", "(": ")", "[": "]"}[text[at]]
    depth, first = 0, text[at]
    for i in range(at, len(text)):
        depth += (text[i] == first) - (text[i] == pair)
        if not depth:
            return i + 1
    return len(text)


def function(raw, text, at):
    """From behind a function's name: its signature, its clauses and its body."""
    clauses, start, sign = [], at, None
    while at < len(text) and text[at] not in ";{":
        clause = CLAUSE.match(text, at)
        if clause:
            sign = sign or text[start:at]
            open_ = text.index("{", at)
            at = closing(text, open_)
            clauses.append((clause[1], raw[open_ + 1 : at - 1]))
        else:
            at = closing(text, at) if text[at] in "([" else at + 1
    body = re.sub(r"//[^\n]*", "", raw[at : closing(text, at)]) if text[at : at + 1] == "{" else ""
    return sign or text[start:at], clauses, body


def items(raw):
    """The parts of a source file, by what they are and their name: each a list of words."""
    text, out = blank(raw), {}
    plain = lambda part: [it for it in re.sub(r",(\s*[)}\]])", r"\1", " ".join(CODE.findall(part))).split()]
    named = collections.Counter()
    for m in re.finditer(r"\bfn\s+(\w+)", text):
        sign, clauses, body = function(raw, text, m.end())
        # methods of several types can have one name
        named[m[1]] += 1
        name = m[1] if named[m[1]] == 1 else f"{m[1]} ({named[m[1]]})"
        out["signature", name] = plain(sign)
        for i, (kind, clause) in enumerate(clauses):
            out[f"{kind} {i}", name] = by_loan(values(words(clause)), sign, kind)
        out["body", name] = plain(body)
    for m in re.finditer(r"\b(?:struct|enum)\s+(\w+)", text):
        ends = [it.start() for it in re.finditer(r"[{(;]", text[m.end() :])][:1]
        at = m.end() + (ends[0] if ends else 0)
        out["type", m[1]] = plain(text[m.start() : at if text[at] == ";" else closing(text, at)])
    for m in re.finditer(r"\bconst\s+(\w+)\s*:((?:[^;\[]|\[[^\]]*\])*);", text):
        out["constant", m[1]] = plain(m[2])
    return out


def parts(path, text):
    if is_law(path):
        return {("text", ""): words(text)}
    if path.endswith(".rt"):
        return items(text)
    if path.endswith(".edit"):
        lines = [it for it in text.split("\n") if it.startswith(("file:", "old:", "new:"))]
        return {("edit", str(i)): [it[:5]] + values(words(it[5:])) for i, it in enumerate(lines)}
    return {}


def told(place, old, new):
    print(f"{place}")
    for kind, i, j, k, n in difflib.SequenceMatcher(None, old, new, autojunk=False).get_opcodes():
        if kind != "equal":
            print(f"   - {' '.join(old[i:j])[:400]}\n   + {' '.join(new[k:n])[:400]}")


def main(old, new=None):
    before, after, seen, open_ = texts(old), texts(new), collections.defaultdict(collections.Counter), []
    count = 0
    for path in sorted(before):
        if path not in after:
            if not path.endswith("Proof.antt"):
                print(f"{path} is gone")
            continue
        was, now = parts(path, before[path]), parts(path, after[path])
        for part in sorted({*was, *now}):
            a, b = was.get(part, []), now.get(part, [])
            count += 1
            if len(a) != len(b):
                open_.append((f"{path} {' '.join(part)}", a, b))
            for one, other in zip(a, b) if len(a) == len(b) else []:
                seen[one][other] += 1
    likely = {it: spelled.most_common(1)[0][0] for it, spelled in seen.items()}
    for place, a, b in open_:
        told(place, [likely.get(it, it) for it in a], b)
    for one, spelled in sorted(seen.items()):
        if len(spelled) > 1:
            print(f"{one} is spelled " + ", ".join(f"{it} ({n} times)" for it, n in spelled.most_common()))
    again = collections.defaultdict(list)
    for one, spelled in seen.items():
        for it in spelled:
            again[it].append(one)
    for it, ones in sorted(again.items()):
        if len(ones) > 1:
            print(f"{it} stands for " + ", ".join(sorted(ones)))
    print(f"{count} texts compared; {len(open_)} differ in length")


if __name__ == "__main__":
    main(*sys.argv[1:3])
