#!/usr/bin/env python3
"""Brings this repository's own definitions and lemmas to today's spelling: snake case for values and lemmas, where they had camel case or dashes.

usage: python3 tools/respell.py [FOLDER]     once, after port.py; FOLDER is the top of a checkout, '.' if none is named

Types, modules, functions of src/, fields of Rust's structs, what is exported to C, strings and comments in plain words stay. A dash stays where it
joins the names of two definitions (`byte_tokens-append`), and in a name that the library has and that is imported from it. It stops before it
writes anything where two names would fall together.
"""
import os
import re
import sys

TOP = sys.argv[1] if len(sys.argv) > 1 else "."
TOKEN = re.compile(r"[^\s(){}\[\].;,@\"\\λ→]+")
DEFINES = re.compile(r"^\s*(?:(?:unfoldable|abbrev|pub)\s+)*([^\s(){}\[\].;,@\"\\λ→:]+(?: [^\s(){}\[\].;,@\"\\λ→:]+)*)\s*:\s", re.M)
USES = re.compile(r"^\s*(?:pub )?(?:ghost )?use ([\w.·+-]+)\.\{([^}]*)\}", re.M)
LISTS = ["append", "length", "drop", "take", "replicate", "reverse", "map", "set", "sets", "get_or", "cond", "flat", "all", "any"]
# names that would fall together with a definition, and what they are called instead: a lemma beside the definition of its name gets `_lem`
INSTEAD = {
    n: n.replace("-", "_") + "_lem"
    for n in (
        "admits-empty already-finished an-end begins-with codes-alone codes-wrong ends-in import-items lets-out like-read low-masks not-amp"
        " raw-places reported-entries rule-of step-bit is-closed back-by too_short too_much bound_by front_by"
    ).split()
}
INSTEAD["is_share"] = "share_is"
# the same in one crate alone, where another one has a function of that name
INSTEAD_IN = {"shift_and_wide": {"step_words": "step_words_lem", "ends_words": "ends_words_lem"}}


def files(*ends):
    for folder, dirs, names in os.walk(os.path.join(TOP, "crates")):
        dirs[:] = sorted(d for d in dirs if d not in ("out", ".git"))
        for n in sorted(names):
            if n.endswith(ends):
                yield os.path.join(folder, n)


def read(p):
    with open(p, encoding="utf-8") as f:
        return f.read()


def bare(text):
    """The text of an antt file without comments and strings."""
    return re.sub(r'"(?:\\.|[^"\\\n])*"', '""', re.sub(r"--[^\n]*", "", text))


def snake(segment):
    s = re.sub(r"(?<=[a-z0-9])(?=[A-Z])", "_", segment)
    s = re.sub(r"(?<=[A-Z])(?=[A-Z][a-z])", "_", s)
    return s.lower()


def is_camel(n):
    return bool(re.match(r"[a-z]", n)) and bool(re.search(r"[a-z0-9][A-Z]", n))


def collect():
    """Names declared anywhere; those declared outside the walks of functions; those of specs/; those imported from a library."""
    every, own, specs, kit = set(), set(), set(), set()
    crates = set(os.listdir(os.path.join(TOP, "crates")))
    for p in files(".antt"):
        t = bare(read(p))
        walk = p.endswith("/Proof.antt")
        for m in DEFINES.finditer(t):
            for n in m.group(1).split(" "):
                every.add(n)
                if not walk:
                    own.add(n)
                    if "/specs/" in p:
                        specs.add(n)
        # modules and sections have parameters of their own, and constructors stand several on a line: DEFINES takes those
        for m in USES.finditer(t):
            parts = m.group(1).split(".")
            if not (parts[0] == "Rattle" and len(parts) > 1 and parts[1] in crates):
                kit.update(x.strip() for x in m.group(2).split(","))
    return every, own, specs, kit


def names():
    every, own, specs, kit = collect()
    # every token in camel case that is not the library's is ours: definitions, constructors, fields, locals
    camel = set()
    for p in files(".antt"):
        for m in TOKEN.finditer(bare(read(p))):
            for n in [m.group()]:
                if any(is_camel(s) for s in n.split("-")):
                    camel.add(n)
    words = {INSTEAD.get(n, snake(n)) for n in specs if "-" not in n} | set(LISTS)
    to = {}
    for n in sorted(own | camel):
        if n in kit or n in ("-", "--") or not re.match(r"[a-zA-Z]", n):
            continue
        if n in INSTEAD:
            to[n] = INSTEAD[n]
            continue
        if "-" not in n:
            if is_camel(n):
                to[n] = snake(n)
            continue
        if n not in own and not any(is_camel(s) for s in n.split("-")):
            continue
        parts = [s if s[:1].isupper() else snake(s) for s in n.split("-")]
        if not all(parts):
            continue
        new = parts[0]
        for a, b in zip(parts, parts[1:]):
            joins = n in own and (a in words or a[:1].isupper()) and (b in words or b[:1].isupper())
            new += ("-" if joins else "_") + b
        if new != n:
            to[n] = new
    return to


def together(to):
    """Where two names fall together, or a new name is already another thing in a file that uses the old one."""
    found = []
    back = {}
    for n, new in to.items():
        back.setdefault(new, []).append(n)
    for new, olds in sorted(back.items()):
        if len(olds) > 1:
            found.append(f"{', '.join(olds)}: all would be {new}")
    for p in files(".antt", ".rt"):
        here = scoped(to, p)
        if p.endswith(".antt"):
            # paths of modules are no names here
            t = re.sub(r"^(\s*(?:pub )?use )[\w.·+-]+", r"\1", bare(read(p)), flags=re.M)
            there = set(m.group() for m in TOKEN.finditer(t))
        else:
            # a parameter would hide the name in a clause; a function of that name doesn't
            t = re.sub(r"//[^\n]*", "", read(p))
            there = set(re.findall(r"\b(\w+):(?!:)", t))
        for n in sorted(set(m.group() for m in TOKEN.finditer(t))):
            if n in here and here[n] in there and here[n] not in here:
                found.append(f"{p}: {n} would be {here[n]}, which stands there already")
    return found


def scoped(to, p):
    crate = os.path.relpath(p, os.path.join(TOP, "crates")).split(os.sep)[0]
    return {**to, **INSTEAD_IN.get(crate, {})}


def turn(text, to, comment):
    def one(m):
        return to.get(m.group(), m.group())

    def code(s):
        return "".join(x if i % 2 else TOKEN.sub(one, x) for i, x in enumerate(re.split(r'("(?:\\.|[^"\\\n])*")', s)))

    def words(s):
        # in prose: names in backticks, and those in camel case
        s = re.sub(r"`([^`\n]+)`", lambda m: "`" + TOKEN.sub(one, m.group(1)) + "`", s)
        return TOKEN.sub(lambda m: to[m.group()] if m.group() in to and is_camel(m.group()) else m.group(), s)

    if comment is None:
        return words(text)
    out = []
    for line in text.split("\n"):
        m = re.search(comment, line)
        if m and line[: m.start()].count('"') % 2 == 0:
            out.append(code(line[: m.start()]) + words(line[m.start():]))
        else:
            out.append(code(line))
    return "\n".join(out)


def main():
    to = names()
    if "--list" in sys.argv:
        for n, new in sorted(to.items()):
            print(n, new)
    found = together(to)
    for f in found:
        print("falls together: " + f, file=sys.stderr)
    if found:
        return 1
    changed = 0
    jobs = [(p, r"--(?=\s|$|-)") for p in files(".antt")] + [(p, r"//") for p in files(".rt")] + [(p, r"(?!)") for p in files(".edit")]
    docs = os.path.join(TOP, "docs")
    for folder, dirs, ns in os.walk(docs):
        jobs += [(os.path.join(folder, n), None) for n in sorted(ns) if n.endswith(".md")]
    jobs.append((os.path.join(TOP, "README.md"), None))
    for p, comment in jobs:
        was = read(p)
        now = turn(was, scoped(to, p), comment)
        if now != was:
            with open(p, "w", encoding="utf-8") as f:
                f.write(now)
            changed += 1
    print(f"respell: {len(to)} names, {changed} files changed")
    return 0


if __name__ == "__main__":
    sys.exit(main())
