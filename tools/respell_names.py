#!/usr/bin/env python3
"""Respells the repository's own names as Rattle's library spells its own: words in snake case, types in camel case.

usage: python3 tools/respell_names.py [--show]     once, at the top, right after port.py

A word in lower camel case is turned wherever it stands in a .antt file, a clause or comment of a .rt file or a must-fail edit.
A lemma's name whose dashes join plain words gets underscores; where they join two names, as in 'holds-reduct', a dash stays.
A lemma that would get its function's name gets '_lem'. Functions and types of src/ keep their names, and so do strings.
It says where two names of one file fall together: a definition may have the name of the function that it says the answer of.
"""
import collections
import os
import re
import sys

NAME = r"[^\s(){}\[\],;.:@λ?\"`|]+"
DEFINED = re.compile(r"^(\s*)(?:abbrev |unfoldable )?(?:pub )?(?:record |data )?(" + NAME + r")(?= (?::|\())")
CAMEL = re.compile(r"(?<![\w'◌-])[a-z][a-z0-9'₀-₉]*(?:[A-Z][A-Za-z0-9'₀-₉]*)+")
# words of the library that lemmas join to others
LIBRARY = set("add among append cons drop get_or length map nil set suc sub sum take mul fits abs eqb leb min max zero slice".split())


def files(*ends):
    for folder, dirs, names in os.walk("crates"):
        dirs[:] = sorted(d for d in dirs if d != "out")
        for name in sorted(names):
            if name.endswith(ends):
                yield os.path.join(folder, name)


def read(path):
    with open(path, encoding="utf-8") as f:
        return f.read()


def snake(word):
    return re.sub(r"(?<=[a-z0-9'₀-₉])[A-Z]", lambda m: "_" + m.group(0).lower(), word)


def snake_all(text):
    return CAMEL.sub(lambda m: snake(m.group(0)), text)


def is_walk(path):
    """Whether a file is a function's proof: its names are Rattle's."""
    return os.path.basename(path) == "Proof.antt" or os.path.exists(os.path.join(os.path.dirname(path), "Invariants.antt"))


def defined(path):
    for line in read(path).splitlines():
        if not line.lstrip().startswith("--"):
            m = DEFINED.match(line)
            if m:
                yield m.group(2)


def names_of_things():
    """Every word that a specs file or a function of src/ gives a name to, respelled."""
    known = set(LIBRARY)
    for path in files(".antt"):
        if "/specs/" in path:
            known |= {snake_all(n) for n in defined(path) if "-" not in n}
    for path in files(".rt"):
        known |= set(re.findall(r"\bfn (\w+)", read(path)))
    return known


def joined(name, known, lemma):
    """A name with dashes, respelled: the dash stays where it joins two names, and else is an underscore."""
    parts = [snake_all(p) for p in name.split("-")]
    for i in range(1, len(parts)):
        left, right = "_".join(parts[:i]), "_".join(parts[i:])
        if left in known and right in known:
            return left + "-" + right
    word = "_".join(parts)
    return word + "_lem" if lemma and word in known else word


def dashed():
    """Each own name with a dash, and what it becomes."""
    known = names_of_things()
    own = collections.OrderedDict()
    for path in files(".antt"):
        if not is_walk(path):
            for n in defined(path):
                if "-" in n and re.match(r"^[A-Za-z]", n):
                    own[n] = joined(n, known, "/proofs/" in path)
    return own


def turn_token(own):
    token = re.compile(r"[A-Za-z_◌][\w'◌-]*")
    return lambda text: token.sub(lambda m: own.get(m.group(0)) or snake_all(m.group(0)), text)


def outside_strings(text, f):
    return "".join(part if i % 2 else f(part) for i, part in enumerate(re.split(r'("(?:[^"\\\n]|\\.)*")', text)))


def together(own):
    """The names of one file that would become one."""
    token = re.compile(r"[A-Za-z_◌][\w'◌-]*")
    f = turn_token(own)
    for path in files(".antt", ".rt"):
        to = collections.defaultdict(set)
        for t in set(token.findall(read(path))):
            to[f(t)].add(t)
        for new, olds in sorted(to.items()):
            if len(olds) > 1:
                yield path, new, sorted(olds)


def main():
    own = dashed()
    clash = list(together(own))
    if "--show" in sys.argv[1:]:
        for old, new in own.items():
            print(old, new)
        for path, new, olds in clash:
            print("together:", path, new, *olds)
        return 0
    for path, new, olds in clash:
        print("together:", path, new, *olds)
    f = turn_token(own)
    for path in files(".antt", ".rt", ".edit"):
        old = read(path)
        new = outside_strings(old, f) if path.endswith(".rt") else f(old)
        if new != old:
            with open(path, "w", encoding="utf-8") as out:
                out.write(new)
    return 0


if __name__ == "__main__":
    sys.exit(main())
