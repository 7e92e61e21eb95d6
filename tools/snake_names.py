#!/usr/bin/env python3
"""Brings the definitions and lemmas of specs/ and proofs/ to the library's spelling: words in snake case.

usage: tools/snake_names.py    at the top of the repository, once, on the files as the toolchain's port.py leaves them

A name with a capital inside or a dash gets underscores. A lemma whose name would then be a definition's or a function's gets `_lem` at its end.
Names that the prover makes for a function's goals keep theirs.
"""

import collections
import glob
import re

WORD = r"[^\s(){}\[\].,;:λ→×⊎⌜⌝≡≤<>«»|↦=\"@#&!?/\\*+`]+"
DECLARED = re.compile(r"(?m)^ *(?:(?:pub|abbrev|unfoldable|record|data) )*([^\s(){}:]+)((?: *[({][^\n]*?[)}])*) :(?= |\n)(.*)$")
LOCAL = ["bodyCells", "eastOpen", "halfCost", "ringCells", "rowGap", "sourceGap", "targetGap", "westOpen", "emptyText"]


def files(*kinds):
    return sorted(p for k in kinds for p in glob.glob(f"crates/*/{k}", recursive=True) if not re.match(r"crates/\w+/out/", p))


def read(path):
    with open(path, encoding="utf-8") as it:
        return it.read()


def snake(name):
    name = name.replace("getD", "get_or")
    name = re.sub(r"(?<=[a-z0-9ℕℤ])([A-Z])", lambda m: "_" + m.group(1).lower(), name)
    return name.replace("-", "_")


def camel(name):
    return not name[0].isupper() and re.search(r"[a-z0-9ℕℤ][A-Z]", name)


antt = files("specs/**/*.antt", "proofs/**/*.antt")
rust = files("src/**/*.rt")

declared = collections.defaultdict(list)
for path in antt:
    for m in DECLARED.finditer(read(path)):
        declared[m.group(1)].append((path, m.group(3)))

functions = {n for path in rust for n in re.findall(r"\bfn (\w+)", read(path))}


def of_the_prover(name):
    return name.startswith("+") or name.endswith("-spec") or all("tie." in kind for _, kind in declared[name])


renamed = {n: snake(n) for n in [*declared, *LOCAL] if camel(n)}
taken = set(renamed.values()) | functions
for name in list(declared):
    to = snake(name)
    if "-" in name and name not in renamed and not of_the_prover(name):
        renamed[name] = to + "_lem" if to in taken or to in declared else to
    elif name in taken and "_" in name and name not in functions:
        # a lemma that has the name already
        renamed[name] = name + "_lem"


def turned(text, some):
    def word(m):
        name = m.group(0)
        if name not in some:
            return name
        to = some[name]
        # a field or a step of a proof goes by the plain word
        after_dot = m.start() > 0 and text[m.start() - 1] == "." and m.start() > 1 and text[m.start() - 2] not in " {,("
        return to[: -len("_lem")] if after_dot and to.endswith("_lem") else to

    return re.sub(WORD, word, text)


only_camel = {n: to for n, to in renamed.items() if camel(n)}
for path in antt + rust + sorted(glob.glob("crates/*/must-fail/*.edit")):
    text = read(path)
    new = turned(text, only_camel if path.endswith(".rt") else renamed)
    if new != text:
        with open(path, "w", encoding="utf-8") as it:
            it.write(new)
# pages also name what port.py itself has turned
spelled = dict(renamed)
for path in sorted(glob.glob("docs/*.md")) + ["README.md"]:
    for name in re.findall(WORD, read(path)):
        if name not in declared and name not in functions and snake(name) != name and snake(name) in declared:
            spelled.setdefault(name, renamed.get(snake(name), snake(name)))
for path in sorted(glob.glob("docs/*.md")) + ["README.md"]:
    text = read(path)
    new = re.sub(r"`[^`\n]+`", lambda m: turned(m.group(0), spelled), text)
    if new != text:
        with open(path, "w", encoding="utf-8") as it:
            it.write(new)
