#!/usr/bin/env python3
"""Brings the names of definitions and lemmas to one spelling: words in snake case, types and facts in camel case.

    python3 tools/respell.py [--list] [ROOT]

A word of specs/ or proofs/ that is spelled as `accountOf` or `trade-day` becomes `account_of` or `trade_day`, and a lemma that is spelled as
`accounts-complete` becomes `accounts_complete`. A dash stays in a lemma's name behind the name of a definition, of a type or of a fact, where it joins two
names: `IsPlace-in`, `missing-none`. A lemma that would have the name of a definition or of a function gets `_lem`.
Functions of src/, strings and comments of src/ and names of the kit stay as they are, the kit's lemmas by RATTLE_KIT, its folder. --list prints the table of names and changes nothing.
"""
import collections
import os
import re
import sys

NAME = r"[A-Za-z_][A-Za-z0-9_']*(?:-[A-Za-z0-9_']+)*"
TOKEN = re.compile(NAME)
CAMEL = re.compile(r"[a-z][a-z0-9]*(?:[A-Z][a-z0-9]*)+")
HEX = re.compile(r"x[0-9A-F]+[0-9]*")
DECLARED = re.compile(
    rf"^\s*(?:(?:abbrev|unfoldable|opaque|pub|def|record|data|inductive|pattern)\s+)*({NAME})(?:\s+[({{].*)?\s*:(?!:)", re.M)
RECORD = re.compile(r"^( *)(?:pub )?record [^\n]*where\n((?:\1  [^\n]*\n)+)", re.M)
DEFINED = re.compile(rf"^\s*(?:abbrev|unfoldable)\s+(?:pub\s+)?({NAME})", re.M)
# strings, and in src/ comments too
STRING = r'b?"(?:[^"\\]|\\[\s\S])*"'
KIT = os.environ.get("RATTLE_KIT", "")


def files(root):
    for top, _, names in os.walk(os.path.join(root, "crates")):
        if "/out/" in top + "/":
            continue
        for name in names:
            path = os.path.join(top, name)
            if name.endswith((".antt", ".rt", ".edit")):
                yield path


def pages(root):
    yield os.path.join(root, "README.md")
    for name in os.listdir(os.path.join(root, "docs")):
        if name.endswith(".md"):
            yield os.path.join(root, "docs", name)


def snake(name):
    return re.sub(r"(?<=[a-z0-9])([A-Z])", lambda m: "_" + m.group(1).lower(), name)


def pieces(path, text):
    """The text in turns: what may be respelled, what stays."""
    stays = STRING if path.endswith(".antt") or path.endswith(".edit") else STRING + r"|//[^\n]*"
    at = 0
    for found in re.finditer(stays, text):
        yield True, text[at:found.start()]
        yield False, found.group(0)
        at = found.end()
    yield True, text[at:]


def kit_words(folder):
    words = set()
    for top, _, names in os.walk(folder):
        for name in names:
            if name.endswith(".antt"):
                with open(os.path.join(top, name), encoding="utf-8", errors="replace") as f:
                    words.update(w for w in TOKEN.findall(f.read()) if "-" in w)
    return words


def table(root, kit):
    texts = {path: open(path, encoding="utf-8").read() for path in files(root)}
    definitions, words, dashed, camel = set(), set(), set(), set()
    for path, text in texts.items():
        if not path.endswith(".antt"):
            continue
        plain = re.sub(r"(^|\s)--.*", "", text)
        if "/specs/" in path:
            definitions.update(DEFINED.findall(plain))
            words.update(n for n in DECLARED.findall(plain) if "-" in n)
        for _, fields in RECORD.findall(plain):
            words.update(n for n in DECLARED.findall(fields) if "-" in n)
        parts = path.split("/")
        under = parts[parts.index("proofs") + 1:] if "proofs" in parts else []
        if "/specs/" in path or (under and under[-1] != "Proof.antt"):
            dashed.update(n for n in DECLARED.findall(plain) if "-" in n)
    for path, text in texts.items():
        for may, piece in pieces(path, text):
            if may:
                for word in TOKEN.findall(piece):
                    camel.update(p for p in word.split("-") if CAMEL.fullmatch(p) and not HEX.fullmatch(p))
    names = {c: snake(c) for c in camel}
    taken = {word for text in texts.values() for word in TOKEN.findall(text)} | set(names.values())
    for word in words:
        names[word] = "_".join(names.get(p, p) for p in word.split("-"))
    for lemma in sorted(dashed - words - kit):
        first, rest = lemma.split("-", 1)
        joined = "-" if first in definitions or re.search("[A-Z]", first) else "_"
        name = names.get(first, first) + joined + "_".join(names.get(p, p) for p in rest.split("-"))
        names[lemma] = name + "_lem" if name != lemma and name in taken else name
    for path, text in texts.items():
        for may, piece in pieces(path, text):
            if may:
                for word in TOKEN.findall(piece):
                    if "-" in word and word not in names and any(p in camel for p in word.split("-")):
                        names[word] = "-".join(names.get(p, p) for p in word.split("-"))
    return {old: new for old, new in names.items() if old != new}, texts


def main():
    arguments = [a for a in sys.argv[1:] if a != "--list"]
    root = arguments[0] if arguments else "."
    names, texts = table(root, kit_words(KIT) if KIT else set())
    words = collections.Counter(w for t in texts.values() for w in TOKEN.findall(t))
    together = collections.defaultdict(list)
    for old, new in names.items():
        together[new].append(old)
    for new, olds in sorted(together.items()):
        if len(olds) > 1 or new in words:
            print(f"together: {new} <- {' '.join(sorted(olds))}{' and itself' if new in words else ''}")
    if "--list" in sys.argv:
        for old in sorted(names):
            print(old, names[old])
        return
    for path in pages(root):
        text = open(path, encoding="utf-8").read()
        new = re.sub(r"`[^`\n]+`", lambda m: TOKEN.sub(lambda n: names.get(n.group(0), n.group(0)), m.group(0)), text)
        if new != text:
            with open(path, "w", encoding="utf-8") as f:
                f.write(new)
    for path, text in texts.items():
        new = "".join(
            TOKEN.sub(lambda m: names.get(m.group(0), m.group(0)), piece) if may else piece
            for may, piece in pieces(path, text))
        if new != text:
            with open(path, "w", encoding="utf-8") as f:
                f.write(new)


if __name__ == "__main__":
    main()
