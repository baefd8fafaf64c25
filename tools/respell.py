#!/usr/bin/env python3
"""Respells this repository's own definitions and lemmas, once, behind the kit's port.py.

Words are in snake case, types and facts in camel case, a prime is an apostrophe. Names that come from the kit keep
their spelling, and so do the dashes that join the parts of a goal's name. Only .antt files and the ghost lines and
clauses of .rt files are touched. Run at the top of the repository.
"""
import collections
import glob
import re

NAME = r"(?<![\w\-])[A-Za-z][\w']*(?:-[\w']+)+"
USE = re.compile(r"(?m)^\s*(?:pub )?(?:ghost )?use ([\w.«»+◌]+)\.\{([^}]*)\}")
CLAUSE = re.compile(r"\s*(ghost|ensures|requires)\b")
DECLARED = re.compile(
    r"(?m)^ *(?:(?:abbrev|unfoldable|pub|data|record) )*([A-Za-z][\w'\-]*)(?: [\w'\-]+)*\s*(?:[({].*)?:(?!=) *(?!goal\.)"
)

# A definition may not have a field's name.
BY_HAND = {"x-bits": "x_bits_of", "y-bits": "y_bits_of"}

# Names that Rattle makes: a dash joins the parts, and a part from the source keeps its spelling.
MADE_PREFIX = [
    ("from-residual-in-err-", "from_residual-in_err-"),
    ("returns-in-err-", "returns-in_err-"),
    ("returns-in-ok-", "returns-in_ok-"),
    ("in-err-", "in_err-"),
    ("in-ok-", "in_ok-"),
    ("overflow-mul-", "overflow_mul-"),
    ("overflow-add-", "overflow_add-"),
    ("overflow-sub-", "overflow_sub-"),
    ("invariant-of-", "invariant_of-"),
]
MADE_WHOLE = {"in-default": "in_default", "returns-in-default": "returns-in_default", "type-inv": "type_inv"}
MADE_LOOP = re.compile(r"((?:invariant-|decreases-)?loop-)(.+?)((?:-(?:preserved|init|smaller|test|item))?)$")
MADE_TAIL = re.compile(r"(.+?)(-(?:requires|index|items|iterator|item|end|\d+))$")
LEFT = re.compile(r"(returns|in|if|then|else|branch|bounds|after|field|iter|into|iterator|past)-")


def snake(name):
    return name.replace("-", "_")


def camel(name):
    return "".join(part[0].upper() + part[1:] for part in name.split("-"))


def made(name):
    """The new spelling of a name that Rattle makes, or None where it is none of those known here."""
    if name in MADE_WHOLE:
        return MADE_WHOLE[name]
    for old, new in MADE_PREFIX:
        if name.startswith(old):
            return new + snake(name[len(old):])
    loop = MADE_LOOP.match(name)
    if loop:
        return loop[1] + snake(loop[2]) + loop[3]
    if LEFT.match(name):
        return name
    tail = MADE_TAIL.match(name)
    if tail:
        return snake(tail[1]) + tail[2]
    return None


def code_of(path, line):
    """The part of a line in which names are respelled."""
    if path.endswith(".antt"):
        return line.split("-- ")[0]
    return line if CLAUSE.match(line) else ""


def main():
    own = [line.split(":")[0].split()[0] for line in open("crates.txt") if line.strip() and not line.startswith("#")]
    paths = [p for end in ("antt", "rt") for p in glob.glob("crates/**/*." + end, recursive=True) if "/out/" not in p]
    texts = {p: open(p).read() for p in paths}
    kit, declared = set(), set()
    for path, text in texts.items():
        for use in USE.finditer(text):
            parts = use[1].split(".")
            if (parts[0] == "Rattle" and parts[1] in own) or parts[-1] in ("Goals", "Given"):
                continue
            kit |= {n.strip().split(" as ")[0] for n in use[2].split(",")}
        if path.endswith(".antt"):
            declared |= {n for n in DECLARED.findall(text) if "-" in n}
    names = collections.Counter(
        m[0] for p, t in texts.items() for line in t.split("\n") for m in re.finditer(NAME, code_of(p, line))
    )
    new = {}
    for name in names:
        if name in kit:
            continue
        if name in BY_HAND:
            new[name] = BY_HAND[name]
        elif name not in declared and made(name) is not None:
            new[name] = made(name)
        else:
            new[name] = camel(name) if name[0].isupper() else snake(name)
    known = {w for t in texts.values() for w in re.findall(r"[A-Za-z_][\w']*", t)}
    for word, count in collections.Counter(new.values()).items():
        if count > 1:
            print("falls together:", word)
    for path, text in texts.items():
        lines = []
        for line in text.split("\n"):
            code = code_of(path, line)
            lines.append(re.sub(NAME, lambda m: new.get(m[0], m[0]), code) + line[len(code):])
        done = "\n".join(lines)
        if done != text:
            open(path, "w").write(done)
    for name in sorted(new):
        if new[name] != name:
            print(name, "->", new[name], "(stood already)" if new[name] in known else "")


main()
