#!/usr/bin/env python3
"""Brings the repository's own definitions and lemmas to the spelling of the language's guide.

usage: python3 tools/respell.py [--dry]      at the top of the repository, once, after the toolchain's own script

A definition, lemma, field or constructor of specs/ and proofs/ whose name has a dash gets snake case (goal-at: goal_at), a type or
a fact gets camel case (Van-case: VanCase). Names of goals and invariants, which the checker makes, keep theirs, and so do functions
of src/, strings and comments. In pages a name is turned where it stands between backquotes. It says which names fall together.
"""

import os
import re
import sys

EDGE = r"\s(){}\[\].;,:@«»`"
HEAD = re.compile(r"^(?:abbrev |unfoldable |private |irreducible )*(?:pub )?(?:abbrev |unfoldable |data |record |open )*([^\s:(){},]+)(?= *[({:]| :|$| where)")
INNER = re.compile(r"^ +(?:abbrev |unfoldable )?(?:pub )?([^\s:(){},]+) :")
LIBRARY = re.compile(r"^ *(?:ghost )?use (?:Rattle\.std\.|(?!Rattle)\w+\.)[\w.]*\{([^}]*)\}", re.M)
ALIAS = re.compile(r"^ *(?:ghost )?use Rattle\.(?!std\.)[\w.]*\{([^}]*)\}", re.M)
SKIP = (" ", "--", "use", "infix", "pub use", "mod", "pub mod")
# Names with a dash that the toolchain's script turned already: in pages they are turned here.
MADE = re.compile(r"[a-z][a-z-]*-[a-z-]*$")


# Lemmas on the library's own functions, whose snake case would be those functions' names.
GIVEN = {"bit-or": "bit_bit_or", "bit-xor": "bit_bit_xor"}


def files(root, ends):
    for folder, dirs, names in os.walk(root):
        dirs[:] = sorted(d for d in dirs if d not in ("out", ".git", "target", "tools"))
        for name in sorted(names):
            if name.endswith(ends):
                yield os.path.join(folder, name)


def text_of(path):
    with open(path, encoding="utf-8") as f:
        return f.read()


def aliases(text):
    """The names under which a file takes another file's."""
    for line in ALIAS.findall(text):
        yield from (w.split(" as ")[1].strip() for w in line.split(",") if " as " in w)


def declared(text):
    """The names that a file of specs/ or proofs/ declares, but for the answers to goals, and its names for another file's."""
    yield from aliases(text)
    for line in text.split("\n"):
        if line and not line.startswith(SKIP):
            m = HEAD.match(line)
            if m and "goal." not in line:
                yield m.group(1)
        elif line.startswith("  ") and "goal." not in line and not line.lstrip().startswith("--"):
            m = INNER.match(line)
            if m:
                yield m.group(1)


def respelled(name):
    if name in GIVEN:
        return GIVEN[name]
    parts = name.split("-")
    if name[0].isupper():
        return parts[0] + "".join(p[:1].upper() + p[1:] for p in parts[1:])
    return "_".join(parts)


def turn_words(text, names, pattern):
    return pattern.sub(lambda m: names[m.group(0)], text)


def turn_code(text, names, pattern, comment):
    """Turns names outside comments and strings."""
    out = []
    for line in text.split("\n"):
        at, quoted = 0, False
        while at < len(line) and not (line.startswith(comment, at) and not quoted):
            if line[at] == '"' and (at == 0 or line[at - 1] != "\\"):
                quoted = not quoted
            at += 1
        code, rest = line[:at], line[at:]
        parts = re.split(r'("(?:[^"\\]|\\.)*")', code)
        out.append("".join(p if i % 2 else turn_words(p, names, pattern) for i, p in enumerate(parts)) + rest)
    return "\n".join(out)


def main():
    dry = "--dry" in sys.argv
    all_names, own = set(), set()
    for path in files("crates", (".antt", ".rt")):
        text = text_of(path)
        for name in declared(text) if path.endswith(".antt") else aliases(text):
            all_names.add(name)
            if "-" in name.strip("-"):
                own.add(name)
    names = {n: respelled(n) for n in own}
    for name, new in sorted(names.items()):
        if new in all_names or sum(1 for x in names.values() if x == new) > 1:
            print(f"falls together: {name} and {new}")
    if not names:
        print("0 names: nothing to do")
        return
    pattern = re.compile(f"(?<![^{EDGE}])(?:" + "|".join(re.escape(n) for n in sorted(names, key=len, reverse=True)) + f")(?![^{EDGE}])")
    for path in files("crates", (".antt", ".rt", ".edit")):
        text = text_of(path)
        # A name that the file takes from a library of the toolchain stays.
        taken = {w.strip() for line in LIBRARY.findall(text) for w in line.split(",")}
        mine = {n: n if n in taken else new for n, new in names.items()}
        if path.endswith(".edit"):
            new = turn_words(text, mine, pattern)
        else:
            new = turn_code(text, mine, pattern, "--" if path.endswith(".antt") else "//")
        if new != text:
            for n in set(pattern.findall(text)):
                if re.search(f"(?<![^{EDGE}]){re.escape(names[n])}(?![^{EDGE}])", text):
                    print(f"look: {path} has both {n} and {names[n]}")
            if not dry:
                with open(path, "w", encoding="utf-8") as f:
                    f.write(new)
    after = {names.get(n, n) for n in all_names}
    for path in files(".", ".md"):
        text = text_of(path)

        def quoted(m):
            word = m.group(1)
            if word in names:
                return f"`{names[word]}`"
            if MADE.match(word) and word.replace("-", "_") in after:
                return f"`{word.replace('-', '_')}`"
            return m.group(0)

        new = re.sub(r"`([^`\s]+)`", quoted, text)
        if new != text and not dry:
            with open(path, "w", encoding="utf-8") as f:
                f.write(new)
    print(f"{len(names)} names")


main()
