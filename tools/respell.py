#!/usr/bin/env python3
"""Brings the repository's own names to today's spelling, once, behind the toolchain's port.py.

usage: tools/respell.py        at the top of the repository

Definitions and lemmas of specs/ and proofs/ go from camel case to snake case (`wellFormed`: `well_formed`), and so do the fields of their
records. In the name of a lemma a dash stays where it joins two names of definitions, and is `_` before a plain word (`put-length`,
`put_over`). Types, facts and modules keep their camel case. Functions of src/, and what programs read and write, keep their names.
Two names that would fall together stop the script.
"""
import collections
import glob
import re
import sys

WORD = r"[A-Za-z0-9_'\-À-ɏ₀-₉]+"
TOKEN = re.compile(r"(?<![\w'’\-])" + WORD)
# what port.py turned where the library had the same spelling, and what it left in pages and edits
BY_PORT = """add-spec and-both and-left and-right atStart both-left both-right by-code by-length byOrder bySize byteOf calm-more carries-same caseOf
chain-first cond-cases count-small cut-spec cuts-first drop-past dueAt either-order entry-spec entryOf firstOf formatIn frameOf free-spec freshOf
give-spec given-is join-kept keptAt lenOf lengthOf line-kept line-taken linkOf look-spec lookOf low-first lowFirst main-spec move-same no-more
none-before none-runs numberOf open-kept or-left-false or-right or-right-false other-differs part-at part-length partAt partOf parts-all pass-kept
passed-over passedBy placeOf put-front put-in read-one readAll round-same same-length set-cases set-to shut-out size-is slotBy slotOf slots-apart
spareOf start-first start-spec startOf step-spec store-spec sum-first take-head take-spec takes-at totalOf turned-right turned-same withLengths
withNext within-low wrong-size xor-assoc""".split()
# names of antt's own tactics, and of definitions that would read as something else
BY_HAND = {
    "first_of": "first_refusal", "firstOf": "first_refusal",
    "by_size": "compared_by_size", "bySize": "compared_by_size", "by-size": "by_size",
}
# words of the library that the names of lemmas are made of
LIBRARY = set("append cond drop get_or length not replicate reverse set swap take".split())


def snake(word):
    return re.sub(r"(?<=[a-z0-9])([A-Z])", lambda m: "_" + m.group(1).lower(), word)


def laws():
    return sorted(glob.glob("crates/*/specs/*.antt") + glob.glob("crates/*/proofs/*.antt"))


def definitions():
    """The names that specs/ and the files of laws define, with the fields of their records, each with 'spec', 'field' or 'law'."""
    found = {}
    top = re.compile(r"^(?:(?:abbrev|unfoldable|pub)\s+)*(?:(data|record)\s+)?(?:pub\s+)?(" + WORD + r")\s*(?::|\()")
    field = re.compile(r"^\s+pub (" + WORD + r") :")
    for path in laws():
        spec = "/specs/" in path
        for line in open(path, encoding="utf-8"):
            m = top.match(line)
            if m and not line.startswith(("use ", "--", "where")):
                found.setdefault(m.group(2), "spec" if spec else "law")
            m = field.match(line)
            if m:
                found[m.group(1)] = "field"
    return found


def respelled(name, kind, words):
    parts = name.split("-")
    if kind == "field":
        return "_".join(snake(p) for p in parts)
    out = parts[0] if parts[0][:1].isupper() else snake(parts[0])
    left = parts[0]
    for p in parts[1:]:
        q = p if p[:1].isupper() else snake(p)
        joins = (snake(left) in words and q in words) or left[:1].isupper() or p[:1].isupper()
        out += ("-" if joins else "_") + q
        left = p
    return out


def main():
    found = definitions()
    words = {snake(n) for n, k in found.items() if k == "spec" and "-" not in n and not n[:1].isupper()} | LIBRARY
    turned = {}
    for name, kind in found.items():
        new = BY_HAND.get(name) or respelled(name, kind, words)
        if new != name and name not in turned:
            turned[name] = new
    # every other name in camel case, as locals and what the pages cite
    for path in laws() + glob.glob("crates/*/proofs/**/*.antt", recursive=True):
        for token in TOKEN.findall(open(path, encoding="utf-8").read()):
            if re.match(r"[a-z]", token) and re.search(r"[a-z0-9][A-Z]", token) and token not in turned:
                turned[token] = BY_HAND.get(token) or respelled(token, "law", words)
    for name in BY_PORT:
        by_port = name.replace("-", "_") if "-" in name else snake(name)
        turned.setdefault(name, turned.get(by_port, BY_HAND.get(by_port, by_port)))
    # a lemma, or the field of a record of facts, that would have its function's name
    for name, kind in sorted(found.items()):
        new = turned.get(name, name)
        others = [n for n, k in found.items() if n != name and k == "spec" and turned.get(n, n) == new]
        if others and kind != "spec":
            turned[name] = new + "_lem"
    kept = {n for n in found if n not in turned}
    news = collections.defaultdict(set)
    for name, new in turned.items():
        if name in found:
            news[new].add(name)
    clash = {n: o for n, o in news.items() if len(o) > 1 or (n in kept and o != {n})}
    if clash:
        for n, o in sorted(clash.items()):
            print(f"respell: {n} would be {' and '.join(sorted(o))}{' and is there' if n in kept else ''}", file=sys.stderr)
        sys.exit(1)

    changed = 0
    paths = glob.glob("crates/**/*.antt", recursive=True) + glob.glob("crates/**/*.rt", recursive=True)
    paths += glob.glob("crates/*/must-fail/*.edit") + glob.glob("docs/**/*.md", recursive=True) + ["README.md"]
    for path in sorted(paths):
        with open(path, encoding="utf-8") as f:
            text = f.read()
        plain = path.endswith((".rt", ".md", ".edit"))

        def turn(m):
            token = m.group(0)
            if token not in turned:
                return token
            # in code and pages an English word with a dash is no lemma, unless it stands as code
            if plain and "-" in token and not re.search(r"[`/]$", text[max(0, m.start() - 1):m.start()]) and not path.endswith(".edit"):
                return token
            if path.endswith(".rt") and re.search(r"(fn |::|\.)$", text[max(0, m.start() - 3):m.start()]) and token == snake(token):
                return token
            return turned[token]

        new = TOKEN.sub(turn, text)
        if new != text:
            with open(path, "w", encoding="utf-8") as f:
                f.write(new)
            changed += 1
    print(f"respell: {len(turned)} names in {changed} files")


main()
