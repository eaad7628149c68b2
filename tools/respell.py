#!/usr/bin/env python3
"""Brings the repository's own names to today's spelling, once, after the kit's port.py: definitions, fields and constructors in camel case
become snake case, and so do lemmas whose words a dash joined.

usage: tools/respell.py FOLDER        rewrites crates/, docs/ and README.md of FOLDER in place

Functions of src/, exported names, strings, inputs and outputs keep their names; so do the names that Rattle makes (they have dashes).
A name that a file brings in from outside the repository keeps its spelling there."""
import os
import re
import sys

WORD = r"[A-Za-z_][A-Za-z0-9_'-]*"
TOKEN = re.compile(r"(?<![\w'-])" + WORD)
DECLARED = re.compile(r"^\s*((?:abbrev|unfoldable|pub|data|record|prop|private)\s+)*(" + WORD + r")(?=[ {(]*[^=]*?:)")
# Parameters of modules, and names that files give to what they bring in.
LOCAL = """longEditions shortEditions numberRead longHas longCount cutShort wideDomain tooLong shortHas shortCount shortMask longMask shortHead
numberWritten noRoom longHead leftOver""".split()
MADE = ("Proof.antt", "Answers.antt", "Invariants.antt")


def texts(root, ends):
    for folder, dirs, files in os.walk(root):
        dirs[:] = sorted(d for d in dirs if d not in ("out", "target", ".git"))
        for f in sorted(files):
            if f.endswith(ends):
                yield os.path.join(folder, f)


def read(path):
    with open(path, encoding="utf-8") as f:
        return f.read()


def snake(name):
    # AArch64 is one word
    name = re.sub(r"_?[aA]Arch(?=\d)", lambda m: ("_" if m.start() else "") + "aarch", name)
    out = re.sub(r"(?<=[a-z0-9'])([A-Z])", lambda m: "_" + m.group(1).lower(), name)
    return re.sub(r"-", "_", out)


def is_camel(name):
    return name[0].islower() and re.search(r"[a-z0-9][A-Z]", name) is not None


def declared(root):
    """The names that specs/ and proofs/ declare: those that are spelled in the older way, and the others."""
    names, others = set(), set()
    for path in texts(os.path.join(root, "crates"), (".antt",)):
        folder, base = os.path.split(path)
        # the proof of one function, which names goals; of such a name beside the lemmas' files it is one of them
        made = base in MADE and "/proofs/" in path and os.path.basename(folder) != "proofs"
        for line in read(path).split("\n"):
            line = line.split("--", 1)[0]
            m = DECLARED.match(line)
            if not m:
                continue
            name = m.group(2)
            if is_camel(name):
                names.add(name)
            elif "-" in name and name[0].islower() and not made:
                names.add(name)
            else:
                others.add(name)
    return names, others


def brought(text, own):
    """The names that a file brings in from outside the repository."""
    out = set()
    for m in re.finditer(r"(?:pub |ghost )?use ([\w.·']+)\.\{([^}]*)\}", text):
        path, names = m.group(1), m.group(2)
        parts = path.split(".")
        if len(parts) > 1 and parts[0] == "Rattle" and parts[1] in own:
            continue
        for n in names.split(","):
            out.add(n.split(" as ")[0].strip())
    return out


def main(root):
    own = set(os.listdir(os.path.join(root, "crates")))
    names, others = declared(root)
    names |= set(LOCAL)
    new = {n: snake(n) for n in names if "-" not in n}
    taken = set(new.values()) | others
    for n in sorted(names - set(new)):
        # a lemma that would have the name of a definition
        new[n] = snake(n) + ("_lem" if snake(n) in taken else "")
    known = others | set(new.values())
    # a lemma whose dash the kit's script turned, and that now has a definition's name
    lemmas = {n: n + "_lem" for n in others & {snake(n) for n in names if "-" not in n}}
    changed, meets = 0, []
    paths = list(texts(os.path.join(root, "crates"), (".antt", ".rt", ".edit")))
    paths += list(texts(os.path.join(root, "docs"), (".md",)))
    paths += [os.path.join(root, "README.md")]
    for path in paths:
        text = read(path)
        kept = brought(text, own) if path.endswith((".antt", ".rt")) else set()
        before = set(TOKEN.findall(text))

        code = path.endswith((".rt", ".edit"))

        def turn(m):
            t = m.group(0)
            if t in lemmas and path.endswith(".antt") and text[m.start() - 1:m.start()] != "." and t not in kept:
                return lemmas[t]
            if t in kept:
                return t
            # pages and edits, which the kit's script leaves, have some names as they were before it
            if t not in new and path.endswith((".md", ".edit")) and is_camel(t) and snake(t) in known:
                return snake(t)
            if t not in new:
                return t
            if code and "-" in t:
                return t
            return new[t]

        out = TOKEN.sub(turn, text)
        if out != text:
            for t in before & names - kept:
                if new[t] in before:
                    meets.append(f"{path}: {t} becomes {new[t]}, which stands there already")
            with open(path, "w", encoding="utf-8") as f:
                f.write(out)
            changed += 1
    print(f"names: {len(names)}, files changed: {changed}")
    print("lemmas:", sorted(lemmas))
    by = {}
    for n, s in new.items():
        by.setdefault(s, []).append(n)
    for s, ns in sorted(by.items()):
        if len(ns) > 1:
            print("one name of two:", s, ns)
    for m in sorted(meets):
        print("look:", m)


main(os.path.abspath(sys.argv[1]))
