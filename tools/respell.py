#!/usr/bin/env python3
"""Respells the names that this repository itself declares in specs/ and proofs/, after the toolchain's own script: words in snake case, a dash only between two names.

usage: python3 tools/respell.py [TOP]      once, on what port.py left, with crates/ below TOP
       python3 tools/respell.py TOP --map  prints old and new names, changes nothing

Functions, fields and constants of src/, strings, inputs and outputs keep their names. A dash stays where what stands on both sides is itself a name, or where
the name with an underscore would meet another one.
"""
import collections
import glob
import os
import re
import sys

TOP = sys.argv[1] if len(sys.argv) > 1 else "."
NAME = re.compile(r"[^\s(){}.;,@\"«»]+")
STRING = re.compile(r'"(?:[^"\\]|\\.)*"')
DECLARED = re.compile(r"^( *)(?:(?:pub|abbrev|unfoldable|ghost) )*([^\s(){}.;,@\"]+)((?: \{[^{}\n]*\}| \([^()\n]*\))*) :(?: |$)")
HEAD = re.compile(r"^( *)(?:pub )?(record|data) (\S+).* where\s*$")
# names whose plain spelling would meet another name in some file
OTHER = {
    "frontOf": "front_octets",
    "goesOn": "walk_goes_on",
    "keyIn": "key_of_entry",
    "levelBy": "level_number",
    "onIn": "on_of_entry",
    "partIn": "part_within",
    "roomOf": "room_octets",
    "rowPut": "row_laid",
    "sizeIn": "size_at_row",
    "withinIn": "within_rows",
    "allPass": "every_passes",
    "tooShort": "is_too_short",
    "isCut": "reads_as_cut",
    "leftIn": "left_of_room",
    "noLine": "empty_line",
}


# modules whose names the toolchain now makes itself: crate, folder, old, new
MODULES = [
    ("pieces", "specs", "Contracts", "Agreements"),
    ("rules", "proofs", "Hidden", "Unseen"),
]


def antt(top):
    found = glob.glob(f"{top}/crates/*/specs/**/*.antt", recursive=True) + glob.glob(f"{top}/crates/*/proofs/**/*.antt", recursive=True)
    return sorted(f for f in found if "/out/" not in f)


def rust(top):
    return sorted(glob.glob(f"{top}/crates/*/src/*.rt"))


def of_function(path):
    return re.search(r"/proofs/.+/(Proof|Answers|Invariants)\.antt$", path) is not None


def plain(text):
    return STRING.sub('""', text)


def imports(text):
    """The names that a file takes from a library of the toolchain."""
    names = set()
    for m in re.finditer(r"use ([^\s;{]+)\.\{([^}]*)\}", text):
        own = m.group(1).startswith("Rattle.") and not re.match(r"Rattle\.(std|core|io|os|libc)\b", m.group(1))
        if not own:
            names |= {n.strip().split(" as ")[0].strip() for n in m.group(2).split(",")}
    return names


def snake(name):
    return re.sub(r"[A-Z]+", lambda m: "_" + m.group(0).lower(), name)


def gather(top):
    texts = {f: open(f, encoding="utf-8").read() for f in antt(top) + rust(top)}
    tokens = collections.defaultdict(set)
    declared, members, library = set(), set(), set()
    for f, text in texts.items():
        library |= imports(text)
        body = plain(text)
        if f.endswith(".rt"):
            for line in body.split("\n"):
                for t in re.findall(r"[\w'-]+", line.split("//")[0]):
                    tokens[t].add(f)
            continue
        depth = None
        for line in body.split("\n"):
            line = line.split("-- ")[0]
            for t in NAME.findall(line):
                tokens[t].add(f)
            head = HEAD.match(line)
            if head:
                depth = len(head.group(1))
                declared.add(head.group(3))
                continue
            if line.strip() and depth is not None and len(line) - len(line.lstrip()) <= depth:
                depth = None
            m = DECLARED.match(line)
            if m:
                generated = of_function(f) and re.search(r": (tie\.|goal\.|Need|.*statement)", line)
                if not generated:
                    declared.add(m.group(2))
                    if depth is not None:
                        members.add(m.group(2))
    return texts, tokens, declared, members, library


def mapping(top):
    texts, tokens, declared, members, library = gather(top)
    names = {t for t in declared | library if "-" not in t}
    for f in rust(top):
        names |= set(re.findall(r"\bfn (\w+)", texts[f]))
    new = {}
    for t in tokens:
        if re.match(r"[a-z][\w']*[A-Z]", t) and "-" not in t and t not in library:
            new[t] = OTHER.get(t, snake(t))
    dashed = sorted(t for t in declared if "-" in t.strip("-") and re.match(r"[\w≤<≡∷+]", t) and t not in library)
    taken = set(tokens) | set(new.values())
    for t in dashed:
        parts = [snake(p) if re.match(r"[a-z][\w']*[A-Z]", p) else p for p in t.split("-")]
        was = t.split("-")
        out = parts[0]
        for i in range(1, len(parts)):
            both = was[i - 1] in names and was[i] in names and t not in members and not re.fullmatch(r"\d+", was[i])
            out += ("-" if both else "_") + parts[i]
        if out != t and (out in taken or not re.fullmatch(r"[^\d].*", out)):
            out = "-".join(parts)
        if out != t and out not in taken:
            new[t] = out
            taken.add(out)
    return texts, new, members


def turn(path, text, new, members):
    lent = imports(text)
    here = of_function(path)
    own = set()
    if here:
        own = {m.group(2) for line in text.split("\n") for m in [DECLARED.match(line)] if m and re.search(r": (tie\.|goal\.)", line)}

    def word(m):
        t = m.group(0)
        if t not in new or t in lent or t in own:
            return t
        if here and m.start() and m.string[m.start() - 1] == "." and t not in members:
            return t
        return new[t]

    out = []
    for line in text.split("\n"):
        done = ""
        last = 0
        for s in STRING.finditer(line):
            done += pieces(path, line[last : s.start()], word) + s.group(0)
            last = s.end()
        done += pieces(path, line[last:], word)
        out.append(done)
    return "\n".join(out)


def pieces(path, text, word):
    if path.endswith(".rt"):
        return re.sub(r"[\w']+(?:-[\w']+)*", word, text)
    return NAME.sub(word, text)


def main():
    texts, new, members = mapping(TOP)
    if "--map" in sys.argv:
        for old in sorted(new):
            print(old, new[old])
        return
    functions = {n for f in rust(TOP) for n in re.findall(r"\bfn (\w+)", texts[f])}
    met = 0
    for f, text in texts.items():
        words = set(NAME.findall(plain(text)))
        for old, name in new.items():
            if old in words and name in words and not f.endswith(".rt") and not (of_function(f) and name in functions):
                print(f"meets: {os.path.relpath(f, TOP)}: {old} and {name}")
                met += 1
    if met:
        raise SystemExit(1)
    for f, text in texts.items():
        turned = turn(f, text, new, members)
        if turned != text:
            with open(f, "w", encoding="utf-8") as out:
                out.write(turned)
    modules()
    print(f"respell: {len(new)} names")


def modules():
    for crate, folder, old, name in MODULES:
        at = f"{TOP}/crates/{crate}/{folder}"
        if not os.path.exists(f"{at}/{old}.antt"):
            continue
        os.rename(f"{at}/{old}.antt", f"{at}/{name}.antt")
        for f in antt(TOP) + rust(TOP):
            text = open(f, encoding="utf-8").read()
            turned = re.sub(rf"\bRattle\.{crate}\.{folder}\.{old}\b", f"Rattle.{crate}.{folder}.{name}", text)
            if f == f"{at}/Lib.antt":
                turned = re.sub(rf"(?m)^((?:pub )?mod ){old}$", rf"\g<1>{name}", turned)
            if turned != text:
                with open(f, "w", encoding="utf-8") as out:
                    out.write(turned)


main()
