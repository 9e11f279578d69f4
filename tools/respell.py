#!/usr/bin/env python3
"""Brings the repository's own definitions, lemmas and fields to snake case: `rowSize` and `take-row` become `row_size` and `take_row`.

usage: respell.py [FOLDER]      the repository's folder, this one if none is given; run once, after port.py

Names of the kit, names that Rattle makes (goals, steps, loops) and names of src/ keep their spelling. Where a lemma's new spelling is that
of a definition that stands in one file with it, the lemma gets `_lem` behind it. Each such name is printed.
"""

import collections
import os
import re
import sys

ROOT = sys.argv[1] if len(sys.argv) > 1 else "."
CRATES = os.path.join(ROOT, "crates")
WORD = r"[^\s(){}.;,@\"«»\[\]\\`]+"
TOKEN = re.compile(r"(\.?)(" + WORD + ")")
DECLARED = re.compile(r"^([ ]*)(?:(?:unfoldable|abbrev|pub|opaque)[ ]+)*((?:" + WORD + r"[ ]+)+):[ ](.*)$")
NAME = re.compile(r"[a-z][\w'-]*")
USED = re.compile(r"^[ ]*(?:pub[ ]+|ghost[ ]+)*use[ ]+([^\s{};]+?)\.\{([^}]*)\}", re.M)
MADE = ("Proof.antt", "Answers.antt", "Invariants.antt")


def files(endings):
    for folder, dirs, names in os.walk(CRATES):
        dirs[:] = sorted(d for d in dirs if d != "out")
        for name in sorted(names):
            if name.endswith(endings):
                yield os.path.join(folder, name)


def read(path):
    with open(path, encoding="utf-8", newline="") as f:
        return f.read()


def snake(name):
    name = re.sub(r"(?<=[a-z0-9])([A-Z])(?![A-Z])", lambda m: "_" + m[1].lower(), name)
    return name.replace("-", "_")


def is_answer(path, name, type_):
    """A goal's answer, an invariant or a measure, or the proof itself: Rattle made its name."""
    if os.path.basename(path) not in MADE:
        return False
    place = r"(?:tie|goal)\.(?!After|In-|Then|Else|Start|Past|At|Joined|Left|If)"
    return bool(re.match(place, type_)) or bool(re.search(r"[-_]spec$", name))


def declarations(path):
    """Name and kind (word, field) of each declaration of a proof or specs file."""
    kind = "word"
    for line in read(path).split("\n"):
        if line[:1].strip() and not line.startswith("--"):
            kind = "field" if re.match(r"(?:pub |abbrev )*(?:record|data) ", line) else "word"
        m = DECLARED.match(line)
        if not m or line.lstrip().startswith("--"):
            continue
        # One name, or several of one type.
        for name in m[2].split() if all(NAME.fullmatch(it) for it in m[2].split()) else m[2].split()[-1:]:
            if not is_answer(path, name, m[3]):
                yield name, kind if m[1] else "word"


def own_crates():
    return sorted(c for c in os.listdir(CRATES) if os.path.isdir(os.path.join(CRATES, c, "src")))


# The library's `if◌then◌else◌` is another one: that of the repository is for types of every level, and unfolds only where a proof says so.
CHOICE = re.compile(r"(?<![\w.'◌-])if(?=◌then◌else◌| )(?![\w'-])")


def choice(path, text):
    """The repository's own choice, as `if' test then x else y`."""
    lines = text.split("\n")
    for i, line in enumerate(lines):
        if line.lstrip().startswith(("--", "//", "#")):
            continue
        if path.endswith(".antt") or "◌then◌" in line or re.search(r"\bif\b.*\bthen\b", line):
            lines[i] = CHOICE.sub("if'", line)
    return "\n".join(lines)


def main():
    own_crate, texts = own_crates(), {p: read(p) for p in files((".antt", ".rt", ".edit"))}
    kit, kinds, where = set(), collections.defaultdict(set), collections.defaultdict(set)
    for path, text in texts.items():
        for module, names in USED.findall(text):
            parts = module.split(".")
            if parts[0] != "Rattle" or parts[1] not in own_crate:
                kit.update(it.split(" as ")[0].strip() for it in names.split(","))
        if path.endswith(".antt"):
            for name, kind in declarations(path):
                kinds[name].add(kind)
                where[name].add(path)
    tokens = {p: {m[2] for m in TOKEN.finditer(t) if not m[1]} for p, t in texts.items()}
    turned = {n: snake(n) for n in kinds if n[0].islower() and snake(n) != n and n not in kit}
    for name in sorted(n for n in kinds if n in kit):
        print(f"kept, since the kit has it: {name}")

    groups, scoped = collections.defaultdict(list), {}
    for name, new in turned.items():
        groups[new].append(name)
    for new, olds in sorted(groups.items()):
        names = olds + ([new] if new in kinds or new in kit else [])
        together = any(p.endswith(".antt") and sum(n in t for n in names) > 1 for p, t in tokens.items())
        if len(names) == 1 or not together:
            continue
        camel = [n for n in olds if "-" not in n]
        for name in [n for n in olds if "-" in n]:
            if "word" in kinds[name]:
                turned[name] = new + "_lem"
                print(f"a lemma: {name} becomes {new}_lem")
        if camel and new in kinds and "word" in kinds[new]:
            scoped[new] = new + "_lem"
            print(f"a lemma: {new} becomes {new}_lem")

    for path, text in texts.items():
        here = dict(turned)
        for old, new in scoped.items():
            if path in where[old] or any(
                old in [it.strip() for it in names.split(",")] and any(module_path(module) == w for w in where[old])
                for module, names in USED.findall(text)
            ):
                here[old] = new
        new = TOKEN.sub(lambda m: m[1] + ((snake(m[2]) if m[2] in turned else m[2]) if m[1] else here.get(m[2], m[2])), text)
        new = choice(path, new)
        if new != text:
            with open(path, "w", encoding="utf-8", newline="") as f:
                f.write(new)
    print(f"respelled: {len(turned)} names")


def module_path(module):
    parts = module.split(".")
    return os.path.join(CRATES, parts[1], *parts[2:]) + ".antt" if parts[0] == "Rattle" and len(parts) > 2 else None


if __name__ == "__main__":
    main()
