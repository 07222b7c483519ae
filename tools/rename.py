#!/usr/bin/env python3
"""Brings this repository's own names of definitions and lemmas to today's spelling, once, after the kit's port.py.

usage: python3 tools/rename.py        at the top, on what port.py left, before any edit by hand

Words are in snake case; a dash stays where it joins two functions' names, or where a name would fall together with
another. Types and modules keep their capitals, and a folder inner/ of specs becomes Inner/. Names of src/, exported
names, strings and outputs stay. must-fail edits and documents get the new names too; in edits the old projection `x .f`
becomes `x.f`."""
import pathlib
import re
import subprocess

TOP = pathlib.Path(__file__).resolve().parent.parent
CRATES = TOP / "crates"
TOKEN = re.compile(r"[A-Za-z◌][\w'◌≤<≡+*₀-₉-]*")
DECLARED = re.compile(r"^(?:(?:abbrev|unfoldable|pub)\s+)*([^\s:(){}.,;=]+)\s+:\s*(.*)$")
FIELD = re.compile(r"^\s+(?:pub\s+)?([^\s:(){}.,;=]+)\s+:\s")
RULESET = re.compile(r"^(?:pub\s+)?ruleset\s+(\S+)")
# Functions of the library that a name's part may be.
LIBRARY = {"length", "take", "drop", "get_or", "append", "replicate", "set", "map", "xor"}
# Names that the rule would bring together with another.
OWN = {"noMode": "no_mode_number"}
# The library's older names, as parts of ours.
PARTS = {"getD": "get_or"}


def antt(folder):
    return sorted(p for p in CRATES.glob(f"*/{folder}/**/*.antt"))


def snake(word):
    word = PARTS.get(word, word)
    word = re.sub(r"([a-z0-9])([A-Z])", r"\1_\2", word)
    return word.lower()


def is_ours(name):
    return name[:1].islower() and (re.search(r"[a-z0-9][A-Z]", name) or "-" in name) and re.fullmatch(r"[A-Za-z][\w'-]*", name)


def declared():
    """The functions, and all names, that specs and proofs declare; a goal's name is none of them."""
    functions, names, lib = set(), set(), set()
    for folder in ("specs", "proofs"):
        for path in antt(folder):
            goals = path.name in ("Proof.antt", "Answers.antt", "Invariants.antt") and folder == "proofs"
            record = False
            for line in path.read_text().split("\n"):
                if line.startswith("use ") and not line.startswith("use Rattle.") or line.startswith("use Rattle.std."):
                    lib.update(TOKEN.findall(line))
                if line.startswith(("--", "use ", "mod ", "pub mod ", "unfolding ")):
                    continue
                found = DECLARED.match(line)
                if found and not (goals and re.match(r"tie\.", found[2])):
                    names.add(found[1])
                    if folder == "specs":
                        functions.add(found[1])
                record = line.startswith(("pub record", "record", "pub data", "data")) or record and line.startswith(" ")
                found = FIELD.match(line)
                if found and record:
                    names.add(found[1])
                found = RULESET.match(line)
                if found:
                    names.add(found[1])
    return functions, names - lib, lib


def dashed(name, functions):
    """The words of a lemma's name in snake case; a dash stays between two functions' names."""
    parts = name.split("-")
    out = snake(parts[0])
    last = parts[0]
    for part in parts[1:]:
        joins = (last in functions or last in LIBRARY or last in PARTS) and (part in functions or part in LIBRARY or part in PARTS)
        out += ("-" if joins else "_") + snake(part)
        last = part
    return out


def texts():
    yield from antt("specs")
    yield from antt("proofs")
    yield from sorted(CRATES.glob("*/src/**/*.rt"))


def mapping():
    functions, names, lib = declared()
    known = set()
    # A function of src/ may have its definition's name; a parameter may not, since it would hide it.
    per_file = {}
    for path in antt("specs") + antt("proofs"):
        tokens = per_file[path] = set()
        for line in path.read_text().split("\n"):
            line = line.partition("-- ")[0]
            if re.search(r" : tie\.", line):
                continue
            tokens.update(found[1] for found in re.finditer(r"(?<![.\w'-])(" + TOKEN.pattern + ")", line))
        known.update(tokens)
    for path in sorted(CRATES.glob("*/src/**/*.rt")):
        text = path.read_text()
        per_file[path] = set(re.findall(r"\b([a-z]\w*)\s*:(?!:)", text))
        for line in text.split("\n"):
            if CLAUSE.search(line):
                per_file[path].update(TOKEN.findall(line))
    # camelCase variables too, so that a file has one style
    names |= {t for t in known if t[:1].islower() and re.search(r"[a-z0-9][A-Z]", t) and "-" not in t and t not in lib}
    table = {}
    for name in sorted(names):
        if is_ours(name) and name not in lib:
            table[name] = dashed(name, functions)
    table.update(OWN)
    # names that would fall together: the lemma keeps its dashes
    while True:
        clash = set()
        for path, tokens in per_file.items():
            seen = {}
            for token in sorted(tokens, key=lambda t: "-" in t):
                new = table.get(token, token)
                if seen.setdefault(new, token) != token:
                    clash.add((token, seen[new], path))
        changed = False
        for token, other, path in sorted(clash):
            if "-" in token and "-" not in table[token].replace("-", "", 0):
                table[token] = "-".join(snake(part) for part in token.split("-"))
                changed = True
        if not changed:
            for token, other, path in sorted(clash):
                print(f"look: {token} and {other} fall together in {path}")
            break
    return {old: new for old, new in table.items() if old != new}


def turned(text, table, kebab=True):
    def one(found):
        word = found[0]
        if "-" in word and not kebab:
            return word
        return table.get(word, word)

    return TOKEN.sub(one, text)


def code(line, table):
    """A line of antt: the comment keeps its prose, but for what is in backticks and names in camel case."""
    before, sep, comment = line.partition("-- ") if "-- " in line else (line, "", "")
    return turned(before, table) + sep + quoted(comment, table)


def quoted(text, table):
    text = re.sub(r"`[^`]*`", lambda found: turned(found[0], table), text)
    return turned(text, table, kebab=False)


def inner(text):
    text = re.sub(r"(specs|proofs)\.inner\b", r"\1.Inner", text)
    text = re.sub(r"\bmod inner\b", "mod Inner", text)
    return text.replace("specs/inner/", "specs/Inner/").replace("specs/inner.antt", "specs/Inner.antt")


def paths(text):
    """The older paths of a crate's own library, and of another's."""
    text = re.sub(r"Rattle·(\w+)·(specs|proofs)\.\2\.", r"Rattle.\1.\2.", text)
    text = re.sub(r"Rattle·(\w+)\.", r"Rattle.\1.", text)
    text = text.replace("the-variants", "TheVariants")
    text = re.sub(r"\b_(≡|\+|-|\*|/|%|\^|<|≤|∙|∷|\+\+|&&|↔|⊎|==)_(?=[,}])", r"◌\1◌", text)
    return text.replace("′", "'")


def tight(text):
    """`x .f` as `x.f`, `(x .f)` as `x.f`."""
    text = re.sub(r"(?<=[\w')]) \.(?=[A-Za-z0-9])", ".", text)
    return re.sub(r"(?<![\w'>!])\((\w[\w'-]*(?:\.[\w'-]+)+)\)", r"\1", text)


CLAUSE = re.compile(r"ghost |requires|ensures|^\s*//|[{→≡]")


def main():
    table = mapping()
    # port.py's own new names, for edits and documents
    for path in antt("specs") + antt("proofs"):
        lines = path.read_text().split("\n")
        path.write_text("\n".join(inner(code(line, table)) for line in lines))
    for path in sorted(CRATES.glob("*/src/**/*.rt")):
        lines = path.read_text().split("\n")
        out = []
        for line in lines:
            if line.lstrip().startswith("//"):
                line = quoted(line, table)
            elif CLAUSE.search(line):
                line = turned(line, table)
            out.append(inner(line))
        path.write_text("\n".join(out))
    for path in sorted(CRATES.glob("*/specs/inner")):
        subprocess.run(["git", "-C", str(TOP), "mv", "-k", str(path), str(path.with_name("Inner"))], check=False)
        if path.exists():
            path.rename(path.with_name("Inner"))
    for path in sorted(CRATES.glob("*/specs/inner.antt")):
        path.rename(path.with_name("Inner.antt"))
    full = dict(table, **older())
    for path in sorted(CRATES.glob("*/must-fail/*.edit")):
        out, file = [], ""
        for line in path.read_text().split("\n"):
            if line.startswith("#"):
                line = quoted(line, full)
            elif line.startswith(("old:", "new:")):
                line = inner(turned(paths(line), full))
                if not file.startswith("src/") or re.search(r"[λ≡→]", line):
                    line = tight(line)
            else:
                line = inner(line)
                file = line[len("file: ") :] if line.startswith("file: ") else file
            out.append(line)
        path.write_text("\n".join(out))
    for path in [*sorted(TOP.glob("*.md")), *sorted((TOP / "docs").glob("*.md"))]:
        lines = path.read_text().split("\n")
        path.write_text("\n".join(inner(re.sub(r"`[^`]*`", lambda found: turned(found[0], full), line)) for line in lines))
    (TOP / "tools" / "renamed.txt").write_text("".join(f"{old} {new}\n" for old, new in sorted(full.items())))


def older():
    """The names that port.py itself turned, since a library had the same spelling: 'look:' in what it printed."""
    said = TOP / "tools" / "port-said.txt"
    if not said.exists():
        return {}
    out = {}
    for line in said.read_text().split("\n"):
        for name in line.split(", "):
            name = name.strip()
            if name:
                out[name] = re.sub(r"([a-z0-9])([A-Z])", r"\1_\2", name).lower().replace("-", "_")
    return out


if __name__ == "__main__":
    main()
