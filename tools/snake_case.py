#!/usr/bin/env python3
"""Spells the repository's own definitions, fields and lemmas in snake case, in specs/, proofs/, clauses and edits.

Run once, at the top, right behind the kit's port.py. Names that Rattle makes (goals, steps) keep their dashes, and so do
names that join two others by a dash, as `length-cells`, or that begin with a fact, as `Tests-tests`.
"""

import os
import re
import sys

# names whose snake case would be another name's, or that the kit's script turned only in part
LEMMAS = ("all-below", "kind-of", "few-pins", "first-place", "input-below", "last-in", "nets-fit", "one-pair", "operands-defined", "read-net", "tables-fit", "takes-word", "within-limits", "file-bytes")
APART = {
    **{name: name.replace("-", "_") + "_lem" for name in LEMMAS},
    **{"bit-and": "bit-bit_and", "bit-or": "bit-bit_or", "bit-xor": "bit-bit_xor"},
    **{"isBlank": "is_blank_byte", "isNameByte": "is_name_character", "tooMany": "is_too_many"},
    **{"countsLine": "counts_line_of", "refusalLine": "refusal_line_of", "layerWord": "layer_word_of", "entryNumbers": "entry_numbers_of"},
}
IN_FILE = {"crates/packed/specs/Packed.antt": {"bitXor": "bit_xor", "bit-xor": "bit_xor"}}
JOINED = ("length-", "get_or-", "drop-", "take-", "map-")
SIGNATURE = re.compile(r"^( *)(?:(?:abbrev|opaque|unfoldable|pub)\s+)*(?:(record|data|module)\s+)?([^\s:(){},.=|λ]+)(?:\s+[^=]*?)?\s*:(?:\s+(.*))?$")
MADE = re.compile(r"^(goal|given|need|rules)\.")
CAMEL = re.compile(r"[a-z][a-z0-9]*(?:[A-Z][A-Za-z0-9]*)+'*")
TOKEN = re.compile(r"[^\s(){}.,;:\"@`\[\]]+")


def files(kinds):
    for folder, _, names in sorted(os.walk("crates")):
        if "/out" not in folder:
            yield from (os.path.join(folder, n) for n in sorted(names) if n.endswith(kinds))


def snake(name):
    return re.sub(r"(?<=[a-z0-9])([A-Z])", lambda m: "_" + m[1].lower(), name).replace("-", "_")


def own_names():
    """Each name that a signature of specs/ or proofs/ declares, and whether it may stand behind a dot as a field."""
    names, fields, made = set(), set(), set()
    for path in files(".antt"):
        record = None
        for line in open(path, encoding="utf-8"):
            m = SIGNATURE.match(re.sub(r"\s*--.*", "", line.rstrip("\n")))
            if not m or m[3] in ("use", "let"):
                continue
            if record is not None and len(m[1]) <= record:
                record = None
            if m[2] in ("record", "data"):
                record = len(m[1])
            elif record is not None:
                fields.add(m[3])
            (made if m[4] and MADE.match(m[4]) else names).add(m[3])
    return names - made, fields


def spelling():
    names, fields = own_names()
    turned = {}
    tokens = {t for p in files((".antt", ".rt")) for t in TOKEN.findall(open(p, encoding="utf-8").read())}
    for name in names | tokens:
        camel = CAMEL.fullmatch(name)
        dashed = name in names and name[0].islower() and "-" in name and not name.startswith(JOINED) and not re.search(r"-[A-Z]", name)
        if name in APART:
            turned[name] = APART[name]
        elif camel or dashed and re.fullmatch(r"[A-Za-z0-9_'-]+", name):
            turned[name] = snake(name)
    return turned, fields


def main():
    turned, fields = spelling()
    tokens = {p: set(TOKEN.findall(open(p, encoding="utf-8").read())) for p in files((".antt", ".rt"))}
    together = {}
    for old, new in turned.items():
        together.setdefault(new, []).append(old)
        for path, found in tokens.items():
            if old in found and new in found:
                print(f"fall together: {path}: {old} and {new}")
    for new, olds in sorted(together.items()):
        if len(olds) > 1:
            print(f"fall together: {olds} as {new}")
    for path in files((".antt", ".rt", ".edit")):
        text = open(path, encoding="utf-8").read()
        mine = {**turned, **IN_FILE.get(path, {})}

        def put(m):
            word, before = m[0], text[m.start() - 1 : m.start()]
            if word not in mine:
                return word
            if before == "." and word not in fields and "-" in word:
                print(f"look: {path}: .{word}")
                return word
            return mine[word]

        new = TOKEN.sub(put, text)
        if new != text:
            open(path, "w", encoding="utf-8").write(new)


if __name__ == "__main__":
    sys.exit(main())
