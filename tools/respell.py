#!/usr/bin/env python3
"""Brings the repository's own names to Rattle's spelling, once, behind port.py.

usage: tools/respell.py [--show]        at the top of the repository

Words are in snake case. A dash joins two names of definitions, as in `length-mark_all`; any other word is added with an underscore.
A lemma that would then have the name of a definition gets `_lem`, so that no two names of definitions and lemmas fall together. A field of a record may be
spelled like one of them, since it stands behind a dot. A name of Rust's keeps its spelling, and a definition may be spelled like a function.
It rewrites .antt, .rt and .edit files below crates/, but no comment's prose (only its code spans), and no name that Rattle makes in a proof.
"""

import collections
import os
import re
import sys

WORD = re.compile(r'[^\s(){}.;,@"«»\[\]`:]+|[:]+')
CAMEL = re.compile(r"(?<=[a-z0-9])([A-Z])(?=[a-z0-9]|$|[-_])")
# what is antt in a file of code
CLAUSE = re.compile(r"ghost use [^;]*;|(?:requires|ensures)\*?\s*(?:\w+\s*)?\{(?:[^{}]|\{[^{}]*\})*\}")
DECLARED = re.compile(r"^\s*((?:unfoldable |abbrev |pub |record |data )*)([^\s(){}.;,@\"«»:]+)(?: [({].*?)? :(?: |$)")
# words of the library that lemmas name
LIBRARY = "length append map take drop get_or set suc zero replicate reverse filter sum min max cond eqb leb ltb not and or nil cons".split()
# and those that the lowest crate defines
FOLDS = "all sum before or_else first_at flat upto run here find among put join part sift is_empty given is_some and_then ascending picked".split()
# names that would fall together with another name, or with that of a crate, and what they are called
CHOSEN = {"compactCall": "compaction_call"}


def texts(top):
    for folder, dirs, files in os.walk(os.path.join(top, "crates")):
        dirs[:] = sorted(d for d in dirs if d != "out")
        for f in sorted(files):
            if f.endswith((".antt", ".rt", ".edit")):
                yield os.path.join(folder, f)


def is_proof(path):
    return path.endswith(("/Proof.antt", "/Answers.antt", "/Invariants.antt"))


def code(path, text):
    return re.sub(r"--[^\n]*" if path.endswith(".antt") else r"//[^\n]*", "", text)


def snake(word):
    return CAMEL.sub(lambda m: "_" + m[1].lower(), word) if re.match(r"[a-z]", word) else word


def table(files):
    """Each name that changes, with its new spelling."""
    used, definitions, laws, fields, rust = collections.Counter(), set(LIBRARY), set(), set(), set()
    for path, text in files.items():
        if path.endswith(".edit"):
            continue
        bare = code(path, text)
        if path.endswith(".rt"):
            rust.update(re.findall(r"[a-z_]\w*", CLAUSE.sub("", bare)))
        used.update(WORD.findall(bare))
        if path.endswith(".antt") and not is_proof(path):
            record = None
            for line in bare.splitlines():
                depth = len(line) - len(line.lstrip())
                if record is not None and line.strip() and depth <= record:
                    record = None
                m = DECLARED.match(line)
                if m and not re.match(r"\s*(let|use)\b", line):
                    if record is not None:
                        fields.add(m[2])
                    (definitions if m[1].replace("pub ", "").strip() else fields if record is not None else laws).add(m[2])
                if re.match(r"\s*(pub )?record ", line):
                    record = depth
    names = definitions | laws | fields
    defined = {snake(d) for d in definitions}
    outer = set(LIBRARY) | {d for d in defined if "_" in d} | set(FOLDS)
    new = {}
    for word in used:
        if not re.match(r"[a-z]", word) or word in rust:
            continue
        if "-" in word and word in names:
            parts = [snake(p) for p in word.split("-")]
            to = parts[0]
            for a, b in zip(parts, parts[1:]):
                to += ("-" if a in outer and b in defined else "_") + b
            if "_".join(parts) in defined:
                to = "_".join(parts)
        else:
            to = snake(word)
        to = CHOSEN.get(word, to)
        if to != word:
            new[word] = to
    # a definition has the plain name
    taken = collections.defaultdict(set)
    for word in used:
        taken[new.get(word, word)].add(word)
    for to, words in sorted(taken.items()):
        if len(words) == 1:
            continue
        first = [w for w in words if CAMEL.search(w)] or [w for w in words if w in definitions] or [w for w in words if w == to] or sorted(words)[:1]
        for w in words:
            # a field stands behind a dot or in a record, where it meets no definition
            if w not in first and w not in rust and w not in fields - laws - definitions:
                new[w] = to + "_lem"
    return new, used, names, rust


def of_library(text, own):
    """The names that a file takes from a library that is no crate of the repository."""
    found = set()
    for m in re.finditer(r"(?m)^\s*(?:ghost )?use ([^\s{;]+)\.\{([^}]*)\}", text):
        if not re.match(r"Rattle\.(?:%s)\." % "|".join(own), m[1] + "."):
            found.update(re.split(r"[\s,]+", m[2]))
    return found


def respell(path, text, new, own):
    antt = path.endswith(".antt")
    proof = is_proof(path)
    stay = of_library(text, own)

    def words(part):
        def one(m):
            to = new.get(m[0], m[0])
            # behind a dot a proof has the names that Rattle makes of a function, which may be spelled like a law
            made = proof and part[max(0, m.start() - 1) : m.start()] == "." and to.endswith("_lem")
            return m[0] if made or m[0] in stay else to

        return WORD.sub(one, part)

    def comment(part):
        return re.sub(r"`[^`\n]+`", lambda m: words(m[0]), part)

    mark = r"(--[^\n]*)" if antt else r"(//[^\n]*)" if path.endswith(".rt") else r"(^#[^\n]*)"
    pieces = re.split(mark, text, flags=re.M)
    return "".join(comment(p) if i % 2 else words(p) for i, p in enumerate(pieces))



def main(argv):
    files = {}
    for path in texts("."):
        with open(path, encoding="utf-8") as f:
            files[path] = f.read()
    new, used, names, rust = table(files)
    if "--show" in argv:
        for w in sorted(new):
            print(w, new[w], used[w])
        return 0
    own = os.listdir("crates")
    for path, text in files.items():
        to = respell(path, text, new, own)
        if to != text:
            with open(path, "w", encoding="utf-8") as f:
                f.write(to)
    print(f"respell: {len(new)} names")
    return 0


if __name__ == "__main__":
    raise SystemExit(main(sys.argv[1:]))
