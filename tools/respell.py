#!/usr/bin/env python3
"""Spells this repository's own definitions and lemmas as today's Rattle does: words in snake case, types and modules in camel case, a prime as an apostrophe.

usage: python3 tools/respell.py [FOLDER]     once, after port.py; FOLDER is a checkout (default: where one stands). --names lists what it renames

A name that is declared in a specs/ file or in a lemma file of proofs/ is respelled wherever it stands: in .antt files, and in the clauses and ghost lines of .rt files.
Names of goals and of steps (in proofs/F/Answers.antt and Invariants.antt) are Rattle's own and stay, as do functions, strings, inputs and outputs.
"""
import os
import re
import sys

WORD = re.compile(r"[^\W\d][\w'·≢≡≤<-]*")
HEAD = re.compile(r"^\s*(?:let\s+)?(?:pub\s+|abbrev\s+|unfoldable\s+|data\s+|record\s+)*([^\W\d][\w'·≢≡≤-]*)\s*(?:[({][^:=]*:[^=]*[)}]\s*)*:(?!=)")
SEVERAL = re.compile(r"^\s+(?:pub )?((?:[^\W\d][\w'·≢≡≤-]* +)+[^\W\d][\w'·≢≡≤-]*) *:(?!=)")
GOAL = re.compile(r"^(Answers|Invariants|Proof)\.antt$")


def respelled(name):
    """A word with dashes or humps in snake case, a type with dashes in camel case; other names stay."""
    name = name.replace("′", "'")
    if any(c in name for c in "·≢≡≤"):
        return name
    if re.fullmatch(r"[a-z]+(?:[A-Z][a-z]+)+", name):
        return re.sub(r"[A-Z]", lambda m: "_" + m.group(0).lower(), name)
    if "-" not in name:
        return name
    parts = name.split("-")
    if name[0].isupper():
        return "".join(p[:1].upper() + p[1:] for p in parts)
    return "_".join(parts)


def texts(root, ending):
    for folder, dirs, files in os.walk(os.path.join(root, "crates")):
        dirs[:] = sorted(d for d in dirs if d != "out")
        for f in sorted(files):
            if f.endswith(ending):
                yield os.path.join(folder, f)


def is_goal_file(path):
    return bool(GOAL.match(os.path.basename(path)))


def declared(path):
    """The names that a file declares: definitions, lemmas, constructors, fields, local ones too."""
    with open(path, encoding="utf-8") as f:
        for line in f:
            m = HEAD.match(line)
            if m and not re.match(r"\s*use\s", line):
                if is_goal_file(path) and re.search(r":\s*(goal|need)\.", line):
                    continue
                yield m.group(1)
            m = SEVERAL.match(line)
            if m and not re.match(r"\s*(use|let|open|module|pub use|abbrev|unfoldable|data|record|pub \w+)\s", line):
                yield from m.group(1).split()


def own(text, names, spared):
    """Respells the words of a text that are in names; a word after 'c.', 'goal.' or 'w.' and their like is Rattle's own where spared says so."""

    def turn(m):
        word = m.group(0)
        if word not in names:
            return word
        if spared and text[m.start() - 1 : m.start()] == ".":
            before = re.search(r"([\w'-]+(?:\.[\w'-]+)*)\.$", text[: m.start()])
            path = before.group(1).split(".") if before else []
            if path and path[0] in spared and not {"ensures", "requires", "invariant"} & set(path):
                return word
        return names[word]

    return WORD.sub(turn, text)


def respell(root, listing):
    names = {}
    for path in texts(root, ".antt"):
        if is_goal_file(path):
            continue
        for name in declared(path):
            new = respelled(name)
            if new != name:
                names[name] = new
    by_new = {}
    for name, new in names.items():
        by_new.setdefault(new, []).append(name)
    taken = set()
    for path in texts(root, ".antt"):
        if not is_goal_file(path):
            taken.update(n for n in declared(path) if n not in names)
    for new, olds in sorted(by_new.items()):
        if len(olds) > 1 or new in taken:
            print(f"together: {new}: {', '.join(olds)}{' and one of that name' if new in taken else ''}")
    if listing:
        for name in sorted(names):
            print(f"{name} {names[name]}")
        return
    for path in texts(root, (".antt", ".rt")):
        with open(path, encoding="utf-8") as f:
            old = f.read()
        if path.endswith(".rt"):
            lines = old.split("\n")
            inside = False
            for i, line in enumerate(lines):
                ghost = re.match(r"\s*(pub\s+)?ghost\s", line)
                clause = re.match(r"\s*(requires|ensures)\b", line)
                if ghost or clause:
                    inside = True
                if inside:
                    lines[i] = own(line, names, ())
                    ends = line.rstrip().endswith(";") if not clause else True
                    if ends:
                        inside = False
            new = "\n".join(lines)
        elif is_goal_file(path):
            local = {n: respelled(n) for n in declared(path) if respelled(n) != n}
            used = dict(names)
            used.update(local)
            new = own(old.replace("′", "'"), used, ("c", "goal", "need", "w", "l", "g", "t"))
            # The name of an answer is the name of its goal.
            for m in re.finditer(r"(?m)^(?:pub |abbrev )*([\w'·-]+)\s*:\s*(?:goal|need)\.([\w'·-]+)", old):
                goal = m.group(1)
                if goal in used:
                    new = re.sub(r"(?m)^((?:pub |abbrev )*)" + re.escape(used[goal]) + r"(?=\s)", lambda k: k.group(1) + goal, new)
        else:
            new = own(old.replace("′", "'"), names, ())
        if new != old:
            with open(path, "w", encoding="utf-8") as f:
                f.write(new)


def main(argv):
    listing = "--names" in argv
    rest = [a for a in argv if a != "--names"]
    respell(rest[0] if rest else ".", listing)


main(sys.argv[1:])
