#!/usr/bin/env python3
"""Brings the definitions and lemmas of this repository to today's spelling: words in snake case, types in camel
case, a prime as an apostrophe. Run once, at the top, after the kit's port.py. Names that the toolchain makes, and
names of functions of src/, stay as they are."""
import glob
import re
import sys

TOKEN = re.compile(r"[^\s(){}\[\];,.:\"`|=]+")
RECORD = re.compile(r"^\s*(?:pub\s+)?record\s+([^\s(){};,.:]+)")
NAMED = re.compile(r"^\s*(?:(?:abbrev|unfoldable)\s+)?(?:pub\s+)?([^\s(){};,.:=λ|]+) :(?: |$)")
MODULES = ("specs", "proofs")


def modern(name):
    if name[0].isupper():
        return "".join(part[0].upper() + part[1:] for part in name.split("-"))
    name = name.replace("′", "'").replace("-", "_")
    return re.sub(r"(?<=[a-z])([A-Z])", lambda m: "_" + m.group(1).lower(), name)


def declared(path, goals):
    for line in open(path):
        for pattern in (RECORD, NAMED):
            found = pattern.match(line)
            if found and found.group(1) not in goals:
                yield found.group(1)


def foreign(text, crates):
    """What the file imports from other libraries than this repository's."""
    names = set()
    for path, listed in re.findall(r"use ([^\s{]+?)\.?\{([^}]*)\}", text):
        parts = path.split(".")
        if not (parts[0] == "Rattle" and len(parts) > 1 and parts[1] in crates) or "Goals" in parts or "Given" in parts:
            names |= {w for item in listed.split(",") for w in item.split()}
    return names


def main():
    crates = {p.split("/")[1] for p in glob.glob("crates/*/src")}
    lemmas = sorted(glob.glob("crates/*/specs/*.antt") + glob.glob("crates/*/proofs/*.antt"))
    answers = sorted(set(glob.glob("crates/*/proofs/**/*.antt", recursive=True)) - set(lemmas))
    everywhere, own = set(), {}
    for path in lemmas:
        everywhere |= set(declared(path, set()))
    for path in answers:
        text = open(path).read()
        goals = set(re.findall(r"(?:goal|need|given)\.([^\s(){};,.]+)", text))
        own[path] = set(declared(path, goals))
    new = {n: modern(n) for n in everywhere if modern(n) != n}
    clash = [f"{n} and {m}" for n, m in new.items() if m in everywhere or list(new.values()).count(m) > 1]
    if clash:
        sys.exit("these fall together: " + "; ".join(clash))
    for path in lemmas + answers + sorted(glob.glob("crates/*/src/**/*.rt", recursive=True)):
        text = open(path).read()
        kept = foreign(text, crates)
        turn = {n: m for n, m in new.items() if n not in kept}
        turn.update({n: modern(n) for n in own.get(path, ()) if modern(n) != n})
        for name in sorted((kept & set(new)) | {n for n, m in turn.items() if m in kept}):
            print(f"{path}: {name} is also a name of another library here")
        goals = set(re.findall(r"(?:goal|need|given)\.([^\s(){};,.]+)", text))
        lines = []
        for line in text.split("\n"):
            code = path.endswith(".rt") and not re.match(r"\s*(ghost|ensures|requires)\b", line)
            comment = line.lstrip().startswith(("//", "--"))
            if not code and not comment:
                line = TOKEN.sub(lambda m: turn.get(m.group(), m.group()) if m.group() not in goals else m.group(), line)
            lines.append(line)
        if "\n".join(lines) != text:
            open(path, "w").write("\n".join(lines))
    for path in ["README.md"] + sorted(glob.glob("docs/*.md")):
        text = open(path).read()
        turned = re.sub(r"`([^`\n]+)`", lambda m: "`" + TOKEN.sub(lambda t: new.get(t.group(), t.group()), m.group(1)) + "`", text)
        if turned != text:
            open(path, "w").write(turned)


main()
