#!/usr/bin/env python3
"""Brings the repository's own definitions and lemmas to the spelling of Rattle's guides: once, right after the kit's port.py.

usage: tools/respell.py [--list]      at the top of the repository

Words are in snake case, facts and types in camel case. A dash stays where it joins two names, as in among-all; a plain word is
added with an underscore, as in all_kept. Functions of src/, exported C names, strings, inputs and outputs keep their names.
It reads the names that specs/ and proofs/ declare, and turns them in .antt and .rt files, in must-fail edits, README and docs/ (docs/LANDINGS.md
tells what was, and keeps the names of its time). --list prints old and new names and writes nothing.
"""

import collections
import glob
import os
import re
import sys

TOKEN = re.compile(r"[^\s(){}.;,@\"«»`:/\[\]|*]+")
DECLARED = re.compile(r"(?m)^(?:(?:abbrev|unfoldable|pub|private)\s+)*([^\s(){}:]+)(?: \{[^{}\n]*\})* :\s")
INNER = re.compile(r"(?m)^ +(?:(?:abbrev|unfoldable|pub)\s+)*([a-z][^\s(){}:]*) :\s")
FIELD = re.compile(r"(?m)^\s+(?:pub )?([^\s(){}:;]+) : ")
RECORD = re.compile(r"(?m)^(?:pub )?(?:record|data) \S+(?:.|\n(?=\s)|\n(?=\n\s))*")
# facts, which are spelled as types
FACTS = {"below64": "Below64"}
# Parts of a lemma's name that name something: words of std and of the logic that no declaration here shows.
LENT = set(
    "length take drop append map filter reverse replicate set get_or slice_index all any not cons nil add sub mul div mod eqb ltb leb "
    "ones bit_or bit_and shl shr pow list_copy pick both fst snd suc zero eq lt le and or if none some".split()
)


def read(path):
    with open(path, encoding="utf-8", newline="") as it:
        return it.read()


def texts():
    for end in ("antt", "rt"):
        for path in sorted(glob.glob(f"crates/**/*.{end}", recursive=True)):
            if "/out/" not in path:
                yield path


def by_hand(path):
    """A function's own proof file: its goals and steps are named after the code, and not by us."""
    return re.search(r"/proofs/.+/(Proof|Answers|Invariants)\.antt$", path) is not None


def declared():
    """Lemmas, also those inside a module or below a where; definitions; fields."""
    lemmas, words, fields = set(), set(), set()
    for path in texts():
        if not path.endswith(".antt") or by_hand(path):
            continue
        text = read(path)
        (words if "/specs/" in path else lemmas).update(DECLARED.findall(text))
        if "/proofs/" in path:
            lemmas.update(it for it in INNER.findall(text) if re.search("[-A-Z]", it[1:]))
        for one in RECORD.findall(text):
            fields.update(FIELD.findall(one))
    return lemmas, words, fields


def snake(name):
    name = re.sub(r"(?<=[a-z0-9])[A-Z]+(?=[A-Z][a-z])|(?<=[a-z0-9])[A-Z]", lambda m: "_" + m[0].lower(), name)
    return name


def turned(name, names):
    if name in FACTS:
        return FACTS[name]
    parts = name.split("-")
    plain = [it if it[:1].isupper() else snake(it) for it in parts]
    named = lambda it: it[0] in names or it[1] in names or not re.match(r"[A-Za-z_]", it[0])
    return ("-" if all(map(named, zip(parts, plain))) else "_").join(plain)


def renames():
    """The new names of definitions and fields, and those of lemmas."""
    lemmas, words, fields = declared()
    functions = {it for path in texts() if path.endswith(".rt") for it in re.findall(r"\bfn (\w+)", read(path))}
    names = {it for it in words if "-" not in it} | functions | LENT
    defined, cited = {}, {}
    for it in sorted(words):
        defined[it] = turned(it, names)
    for it in sorted(fields):
        defined.setdefault(it, it if it[:1].isupper() else turned(it, set()))
    for it in sorted(lemmas - words):
        cited[it] = turned(it, names)
    # A lemma that would have a definition's name gets _lem, also one that stands inside another.
    taken = {new for old, new in defined.items() if new != old} | {new for old, new in cited.items() if re.search("[A-Z]", old[1:]) and new != old}
    local = {it for path in texts() if path.endswith(".antt") and "/proofs/" in path and not by_hand(path) for it in re.findall(r"(?m)^ +(?:pub )?(\S+) :\s", read(path))}
    for it in sorted((lemmas - words) | local):
        new = cited.get(it, it)
        if not re.search("[A-Z]", it) and (new in taken or new != it and new in defined):
            cited[it] = new + "_lem"
    only = lambda of: {old: new for old, new in of.items() if new != old}
    return only(defined), only(cited)


def turn(text, defined, cited):
    aliases = set(re.findall(r"(?m)^use \S+ as (\S+)$", text))

    def new(m):
        it = m[0]
        if it in defined:
            return defined[it]
        # Behind a dot stands a lemma only where a module is named before it, and else a field or a step.
        before = re.search(r"([^\s(){}.;,]*)\.$", text[max(0, m.start() - 80) : m.start()])
        return cited.get(it, it) if not before or before[1][:1].isupper() or before[1] in aliases else it

    return TOKEN.sub(new, text)


def turn_source(text, defined):
    """The names in a source file, but for what its strings hold."""
    parts = re.split(r"(b?\"(?:[^\"\\]|\\.)*\")", text)
    return "".join(it if n % 2 else turn(it, defined, {}) for n, it in enumerate(parts))


def collisions(names):
    back = collections.defaultdict(set)
    for old, new in names.items():
        back[new].add(old)
    for new, olds in sorted(back.items()):
        if len(olds) > 1:
            print(f"two names fall together: {sorted(olds)} -> {new}")
    for path in texts():
        tokens = set(TOKEN.findall(read(path))) - set(names)
        for new, olds in sorted(back.items()):
            hit = olds & set(TOKEN.findall(read(path)))
            if hit and new in tokens:
                print(f"{path}: {new} stands there beside {sorted(hit)}")


def main(argv):
    defined, cited = renames()
    if argv == ["--list"]:
        for old, new in {**defined, **cited}.items():
            print(f"{old} -> {new}")
        collisions({**defined, **cited})
        return
    pages = ["README.md"] + [it for it in sorted(glob.glob("docs/*.md")) if os.path.basename(it) not in ("LANDINGS.md", "PORT.md")]
    odd = {old: new for old, new in {**defined, **cited}.items() if re.search("[-A-Z]", old)}
    for path in list(texts()) + sorted(glob.glob("crates/*/must-fail/*.edit")) + pages:
        text = read(path)
        if path.endswith(".rt"):
            new = turn_source(text, defined)
        elif path.endswith(".antt"):
            new = turn(text, defined, cited)
        else:
            new = turn(text, odd, {})
        # a fact of threshold_field, whose name is a number's elsewhere
        if path.startswith("crates/threshold_field/") and "ThresholdField" in path + new and not path.endswith("/Answers.antt"):
            new = re.sub(r"(?<!ensures )(?<![\w.-])small(?![\w-])", "Small", new)
        if new != text:
            with open(path, "w", encoding="utf-8", newline="") as it:
                it.write(new)


main(sys.argv[1:])
