#!/usr/bin/env python3
"""Brings the names of this repository's own definitions, lemmas, fields and local variables to today's spelling.

usage: python3 tools/snake_case.py        at the top of the repository, once, after Rattle's own script

A name with dashes that specs/ or proofs/ declares becomes snake case, and upper camel case where it begins with a
capital. What Rattle names itself (goals, steps) and what its library declares keeps its spelling. Comments, strings and
code stay. It writes nothing where two names would fall together.
"""

import glob
import re
import sys

NAME = re.compile(r"[^\s(){}.,;:\[\]«»\"`|=@]+")
SIGNATURE = re.compile(r"^\s*(?:(?:abbrev|unfoldable|opaque|pub) )*([^\s(){}.,;:]+) : *(\S*)")
DECLARED = re.compile(r"^\s*(?:pub )?(?:data|record|ruleset|module) ([^\s(){}.,;:]+)")
BOUND = [re.compile(r"\blet ([^\s(){}.,;:]+) [=:]"), re.compile(r"λ ([^.]*)\."), re.compile(r"\(([^\s(){}.,;:]+(?: [^\s(){}.,;:]+)*) :")]
LIBRARY = re.compile(r"^\s*(?:pub |ghost |unfoldable )*use (?:Rattle\.std|borrow|Prim|denote)\b.*")


def antt(text):
    """The pairs of a line and its comment."""
    for line in text.splitlines():
        at = line.find("--")
        yield (line, "") if at < 0 else (line[:at], line[at:])


def rust(text):
    """The pairs of a line, with its strings taken out of what may change, and its comment."""
    for line in text.splitlines():
        at = line.find("//")
        yield (line, "") if at < 0 or '"' in line[:at] else (line[:at], line[at:])


def is_dashed(name):
    return "-" in name and re.search(r"[\w']-[\w']", name) is not None


def turned(name):
    if name[0].isupper() and len(name.split("-")[0]) > 1:
        return "".join(part[:1].upper() + part[1:] for part in name.split("-"))
    return name.replace("-", "_")


def found(files):
    """The dashed names that the files declare or bind, and those that come from the library."""
    own, library = set(), set()
    for path in files:
        with open(path, encoding="utf-8") as f:
            text = f.read()
        answers = re.search(r"/(Answers|Invariants|Proof)\.antt$", path)
        for code, _ in antt(text):
            if LIBRARY.match(code):
                library.update(w for w in NAME.findall(code) if is_dashed(w))
                continue
            if re.match(r"^\s*(pub |unfoldable )*use ", code):
                continue
            m = SIGNATURE.match(code)
            if m and not m.group(2).startswith("goal."):
                own.add(m.group(1))
            m = DECLARED.match(code)
            if m:
                own.add(m.group(1))
            for pattern in BOUND:
                for m in pattern.finditer(code):
                    own.update(m.group(1).split())
            if not answers:
                # the patterns of a definition's own line
                m = re.match(r"^\s*([^\s(){}.,;:]+) ([^=]*) =( |$)", code)
                if m and not code.lstrip().startswith(("let ", "record", "|")):
                    own.update(NAME.findall(m.group(2)))
            for m in re.finditer(r"\| ([^↦]*)↦", code):
                own.update(w for w in NAME.findall(m.group(1)) if not w.startswith("in-"))
            for m in re.finditer(r"let \(([^()]*)\) =", code):
                own.update(NAME.findall(m.group(1)))
    return {w for w in own if is_dashed(w)} - library, library


def main():
    files = sorted(glob.glob("crates/*/specs/**/*.antt", recursive=True) + glob.glob("crates/*/proofs/**/*.antt", recursive=True))
    sources = sorted(glob.glob("crates/*/src/**/*.rt", recursive=True))
    edits = sorted(glob.glob("crates/*/must-fail/*.edit"))
    names, library = found(files)
    to = {name: turned(name) for name in names}

    # names that would fall together
    seen = set()
    for path in files:
        with open(path, encoding="utf-8") as f:
            for code, _ in antt(f.read()):
                seen.update(NAME.findall(code))
    new = {}
    for name in sorted(names):
        new.setdefault(to[name], []).append(name)
    together = [f"{v} -> {k}" for k, v in new.items() if len(v) > 1] + [f"{v[0]} -> {k}, which is there" for k, v in new.items() if k in seen]
    if together and "--force" not in sys.argv:
        print("\n".join(together))
        print("nothing was written: rename by hand first, or say --force where they never meet")
        return 1

    def turn(code):
        return NAME.sub(lambda m: to.get(m.group(0), m.group(0)), code)

    def in_rust(code):
        # a string keeps its words
        return "".join(part if i % 2 else turn(part) for i, part in enumerate(re.split(r'("(?:[^"\\]|\\.)*")', code)))

    for path, lines, change in [(p, antt, turn) for p in files] + [(p, rust, in_rust) for p in sources] + [(p, rust, in_rust) for p in edits]:
        with open(path, encoding="utf-8") as f:
            old = f.read()
        text = "\n".join(change(code) + rest for code, rest in lines(old)) + ("\n" if old.endswith("\n") else "")
        if text != old:
            with open(path, "w", encoding="utf-8") as f:
                f.write(text)
    for name in sorted(names):
        print(f"{name} {to[name]}")
    return 0


if __name__ == "__main__":
    sys.exit(main())
