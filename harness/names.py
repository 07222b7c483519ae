"""Checks that what the documents name in backquotes is there: definitions, theorems, functions, types, constants,
must-fail edits, crates, files and folders; and that docs/PROMISES.md names every must-fail edit.

    python3 harness/names.py        from the repository's top; status 1 where a name is wrong, with a line for each

How a document is read. Paths count from crates/ or from the top.

    `a`, `b` in `held/proofs/Laws.antt`     both are defined in that file, or in a file of that folder
    `A`, over `b` in `file`                 b is defined there, A somewhere
    `A`, over `b`, in `file`                both are defined there
    `a` there, `a` in the same file         it is defined in a file named before it in the cell or the paragraph; else
                                            in one of the nearest cell above it, or to the left, that names any
    `a`, `b` (`crate`)                      both are edits of that crate, or defined in it
    `crate::f`, `Type::f`                   f is defined in that crate, or in that type: of crates/, in GUIDE also of
                                            bindings/ and include/

In PROMISES a definition without a file is in the specs/Promises.antt of the crate whose theorem is in the next column,
names in the column of edits are edits, and an edit whose name two crates use has its crate beside it.

A name by itself is defined somewhere, or is an edit, a crate, a file or a folder. Code that is no single name, such as
a line for the shell, is passed over, but for paths, `a::b` and names of the library for C in it."""
import collections
import pathlib
import re
import sys

DOCUMENTS = ["docs/PROMISES.md", "docs/RULES.md", "docs/GUIDE.md", "docs/ARCHITECTURE.md"]
PROMISES, GUIDE = DOCUMENTS[0], DOCUMENTS[2]
HEADER = "include/conguraha.h"
FOLDERS = ["bindings", "crates", "docs", "examples", "harness", "include", "lists", "packaging"]
NOT_OURS = {"target", "out", "__pycache__"}

# Words of a name's form that are none: letters and values of the rules, words of languages, and what others make.
NO_NAMES = set(
    """
    n m j k t w x C D E M R ECB CBC CFB OFB CTR
    requires ensures u8 u32 u64 usize size_t NULL
    rt cc cargo cmake openssl pkg-config valgrind python3-cryptography-vectors
    """.split()
)
OPENSSLS = re.compile(r"(?i:aes-?(128|192|256)-[\w-]+)|EVP_\w+")

# With both primes: the one that Rattle no longer has is then found nowhere.
NAME = re.compile(r"[A-Za-z_][\w'′]*(?:-[\w'′]+)*")
DOTTED = re.compile(rf"{NAME.pattern}(?:\.{NAME.pattern})+")
QUALIFIED = re.compile(r"[A-Za-z_]\w*(?:::[A-Za-z_]\w*)+")
FILE = re.compile(r"[\w*.-]+\.(?:antt|rt|rs|c|h|hpp|cpp|py|md|txt|edit|sh|toml)")
PATH = re.compile(r"(?:\./)?[\w*.-]+(?:/[\w*.-]+)+/?|\./[\w*.-]+|[\w.-]+/")
FROM_C = re.compile(r"\b(?:conguraha|CONGURAHA)\w*")
CODE = re.compile(r"(?<!`)(`+)(?!`)(.+?)(?<!`)\1(?!`)", re.S)

# Between two names, before a file, after a name.
AND = re.compile(r"\s*(?:,|and|or|,\s*and)\s*")
OVER = re.compile(r",?\s*over\s*")
IN = re.compile(r"(,?)\s*in\s*")
THERE = re.compile(r"(,?)\s*(?:there\b|in the same (?:file|proof)\b)")

# What a file defines, by its language: fields, parameters and variants too.
RUST = r"\b(?:fn|struct|enum|trait|const|static|type|mod) +(\w+)|\b(\w+):\s|^ +([A-Z]\w*)[,({ ]|^ *pub use [\w:]*\b(\w+);"
DEFINITIONS = {
    ".antt": r"^ *(?:(?:pub|abbrev|unfoldable) +)*(?:(?:record|data|mod|ruleset) +([^\s:]+)|([^\s(){}:;,]+) *:(?: |$))",
    ".rt": RUST,
    ".rs": RUST,
    ".py": r"\b(?:def|class) +(\w+)|^ *(\w+)(?:: [^=\n]+)? = |^ +(\w+): ",
    "": r"^(\w+)\(\)",
}
WORDS = r"([A-Za-z_]\w*)"  # of C and C++: every word
COMMENTS = {".antt": r"^ *--.*$", ".rt": r"^ *//.*$", ".rs": r"^ *//.*$"}
C_COMMENTS = r"/\*[\s\S]*?\*/|//.*$|\"(?:\\.|[^\"\\\n])*\""


def defined(path):
    """The names that a file defines."""
    text = path.read_text(encoding="utf-8", errors="replace")
    if path.suffix in (".c", ".h", ".cpp", ".hpp"):
        return set(re.findall(WORDS, re.sub(C_COMMENTS, "", text, flags=re.M)))
    text = re.sub(COMMENTS.get(path.suffix, r"\Z"), "", text, flags=re.M)
    found = re.findall(DEFINITIONS.get(path.suffix, DEFINITIONS[""]), text, re.M)
    names = {name for one in found for name in ([one] if isinstance(one, str) else one) if name}
    for again in re.findall(r"^ *(?:unfoldable )?pub use \S+(?:\.|::)\{([^}]*)\}", text, re.M):
        names |= {one.split()[-1] for one in again.split(",") if one.strip()}  # of `a as b` the latter
    return names


def members(path):
    """What stands inside the types of a file in Rattle, Rust or Python: (type, name)."""
    kind = r"^(?:pub )?(?:impl(?:<[^>]*>)?(?: [\w:<>]+ for)?|enum|struct|trait|class) (\w+)"
    inside = r" +(?:pub(?:\(\w+\))? )?(?:const |ghost )?(?:fn |def )?(\w+)"
    type_ = None
    for line in path.read_text(encoding="utf-8", errors="replace").splitlines():
        opened, member = re.match(kind, line), re.match(inside, line)
        if opened or line[:1].strip():
            type_ = opened and opened[1]
        if type_ and member:
            yield type_, member[1]


class Repository:
    """What is there."""

    def __init__(self):
        paths = [p for p in pathlib.Path(".").iterdir() if p.is_file()]
        paths += [p for folder in FOLDERS for p in pathlib.Path(folder).rglob("*")]
        paths = [p for p in paths if not NOT_OURS & set(p.parts)]
        self.files = {p.as_posix(): p for p in paths if p.is_file()}
        self.folders = {p.as_posix() for p in paths if p.is_dir()} | set(FOLDERS)
        self.crates = {p.parts[1] for p in paths if p.parts[0] == "crates" and len(p.parts) > 2}
        self.edits = collections.defaultdict(set)
        self.defined, self.members = {}, collections.defaultdict(set)
        for name, path in self.files.items():
            self.read(name, path)
        plain = {p.name for p in paths} | {p.stem for p in paths}
        self.known = self.crates | set(self.edits) | plain | set().union(*self.defined.values())
        exported = set().union(*(names for path, names in self.defined.items() if path.startswith("crates/")))
        in_c = {name for name in self.defined.get(HEADER, ()) if not re.match(r"conguraha\d", name)}
        self.from_c = plain | exported | in_c  # an export is one of the crates', whatever the header says

    def read(self, name, path):
        if path.suffix == ".edit":
            self.edits[path.stem].add(path.parts[1])
        elif path.suffix not in (".md", ".txt", ".stdout"):
            self.defined[name] = defined(path)
        if path.suffix in (".rt", ".rs", ".py"):
            for type_, member in members(path):
                self.members[path.parts[0], type_].add(member)

    def places(self, word):
        """The files and folders that a path names. A file's name alone is any of that name, specs/.. of any crate."""
        top, word = word.startswith("./"), re.sub(r"^\./|/$", "", word)
        if "/" not in word and FILE.fullmatch(word):
            room = "(?:.*/)?"
        elif word.split("/")[0] in ("must-fail", "proofs", "specs", "src"):
            room = r"crates/\w+/"
        else:
            room = "(?:crates/)?"
        wanted = re.compile(("" if top else room) + ".*".join(map(re.escape, word.split("*"))))
        return sorted(p for p in [*self.files, *self.folders] if wanted.fullmatch(p))

    def defines(self, place, name):
        """Whether a file, or a file of a folder, defines the name."""
        inside = place + "/"
        return any(name in names for path, names in self.defined.items() if path == place or path.startswith(inside))

    def in_crate(self, crate, name):
        return crate in self.edits.get(name, ()) or self.defines("crates/" + crate, name)

    def qualified(self, word, folders):
        """Whether the last part is defined in the one before it: a crate, a module or a type."""
        *_, room, name = word.split("::")
        if room in self.crates and self.defines(f"crates/{room}/src", name):
            return True
        if any(name in self.members[folder, room] for folder in folders):
            return True
        modules = (path for path in self.defined if pathlib.PurePath(path).stem == room)
        return any(path.split("/")[0] in folders and name in self.defined[path] for path in modules)


class Document:
    """One document, compared with what is there."""

    def __init__(self, path, repository):
        self.path, self.there = path, repository
        self.text = pathlib.Path(path).read_text(encoding="utf-8")
        self.wrong, self.checked = set(), 0
        self.code = ["crates", "bindings", "include"] if path == GUIDE else ["crates"]
        self.named = set()  # the edits, each with the crate beside it or None
        self.header, self.above = [], {}  # of this table: the first row, and the files named last in each column

    def must(self, holds, line, words):
        self.checked += 1
        if not holds:
            self.wrong.add((line, words))
        return bool(holds)

    # ---- the document's parts

    def check(self):
        paragraph, fenced, rows = [], False, 0
        for line, text in enumerate(self.text.split("\n") + [""], 1):
            self.everywhere(line, text)
            row = text.startswith("|") and not fenced
            if paragraph and (row or not text.strip() or re.match(r"\s*(?:[-*#]|\d+\.|```)", text)):
                self.resolve(self.groups(paragraph[0][0], "\n".join(words for _, words in paragraph)))
                paragraph = []
            if text.lstrip().startswith("```"):
                fenced = not fenced
            elif row:
                self.row(line, text, rows == 0)
            elif text.strip() and not fenced and not text.startswith("    "):
                paragraph.append((line, text))
            rows = rows + 1 if row else 0

    def everywhere(self, line, text):
        """Links, paths outside backquotes and the C library's names: in blocks of code too."""
        for target in re.findall(r"\]\(([^)\s]+)\)", text):
            self.link(line, target)
        for name in FROM_C.findall(text):
            self.must(name in self.there.from_c, line, f"`{name}` is nowhere")
        outside = re.sub(r"`[^`]*`|\]\([^)]*\)", " ", text)
        for path in re.findall(r"(?<![\w/.-])(?:" + "|".join(FOLDERS) + r")/[\w*./-]*\w", outside):
            self.must(self.there.places(path), line, f"{path} is not there")

    def link(self, line, target):
        file, _, heading = target.partition("#")
        if ":" in file:
            return
        path = pathlib.Path(self.path).parent / file if file else pathlib.Path(self.path)
        if not self.must(path.exists(), line, f"the link {target} leads nowhere") or not heading:
            return
        titles = re.findall(r"^#+ +(.*?)\s*$", path.read_text(encoding="utf-8"), re.M)
        slugs = {re.sub(r"[^\w\- ]", "", title.lower()).replace(" ", "-") for title in titles}
        self.must(heading in slugs, line, f"the link {target} leads to no heading")

    def row(self, line, text, first):
        cells = re.split(r"\|(?=(?:[^`]*`[^`]*`)*[^`]*$)", text)[1:-1]
        if first:
            self.header, self.above = [cell.strip().lower() for cell in cells], {}
        titles = dict(enumerate(self.header if self.path == PROMISES else []))
        groups = [self.groups(line, cell, titles.get(i) in ("refuses", "edits")) for i, cell in enumerate(cells)]
        proved = []
        # A definition without a file goes by its theorem, so that is read first.
        for i in sorted(range(len(cells)), key=lambda i: titles.get(i) == "definition"):
            left = [place for cell in groups[:i] for _, place in cell if isinstance(place, list)]
            above = self.above.get(i, [])
            files = self.resolve(groups[i], above + left[-1:], proved if titles.get(i) == "definition" else [])
            self.above[i] = files or above
            if titles.get(i) == "proved by":
                crates = [file.split("/")[1] for place in files for file in place if "/proofs/" in file]
                proved = [[f"crates/{crate}/specs/Promises.antt"] for crate in crates]

    # ---- a cell or a paragraph

    def groups(self, line, text, edits=False):
        """Its names in groups, each with where it is said to be: the places of a path, 'there', a crate, or None."""
        groups, group, outer, end = [], [], [], 0

        def close(where=None, both=False):
            nonlocal group, outer
            groups.extend([(outer, where if both else None), (group, where)])
            group, outer = [], []

        for code in CODE.finditer(text):
            word, at = " ".join(code[2].split()), line + text.count("\n", 0, code.start())
            gap, end = text[end : code.start()], code.end()
            if PATH.fullmatch(word) or FILE.fullmatch(word):
                named_in, places = IN.fullmatch(gap), self.paths(at, word)
                if not named_in:
                    close()
                close(places, named_in and named_in[1])
            elif gap.strip() == "(" and word in self.there.crates and group:
                close(word)
            elif self.name(at, word, edits):
                if OVER.fullmatch(gap):
                    outer, group = outer + group, []
                elif not AND.fullmatch(gap):
                    close()
                group.append((at, re.split(r"::|\(", word)[-1]))
                there = THERE.match(text, end)
                if there:
                    close("there", there[1])
            else:
                close()
        close()
        return [one for one in groups if one[0] or isinstance(one[1], list)]

    def paths(self, line, word):
        if word.startswith(("target/", "/")):
            return []
        places = self.there.places(word)
        self.must(places, line, f"`{word}` is not there")
        return places

    def name(self, line, word, edits):
        """Checks a word by itself; whether it is one name."""
        called = re.fullmatch(r"([\w:.]+)\(.*\)", word)
        word = called[1] if called else word
        if word in NO_NAMES or OPENSSLS.fullmatch(word):
            return False
        if NAME.fullmatch(word):
            if edits and word not in self.there.crates:
                return self.must(word in self.there.edits, line, f"there is no edit `{word}`")
            return self.must(word in self.there.known, line, f"`{word}` is nowhere")
        if DOTTED.fullmatch(word):
            self.must(word.split(".")[-1] in self.there.known, line, f"`{word}` is nowhere")
        for part in QUALIFIED.findall(word):
            self.must(self.there.qualified(part, self.code), line, f"`{part}` is nowhere")
        for path in PATH.findall(word):
            if path.startswith("./") or path.split("/")[0] in FOLDERS:
                self.must(self.there.places(path), line, f"`{path}` is not there")
        return bool(QUALIFIED.fullmatch(word))

    def resolve(self, groups, before=(), default=()):
        """Checks each group where it is said to be; gives the places that the part names or goes by."""
        files = []
        for names, where in groups:
            places = [where] if isinstance(where, list) else (files or before) if where == "there" else default
            if isinstance(where, str) and where != "there":
                self.of_crate(names, where)
                continue
            self.stand(names, [place for several in places for place in several])
            files += places if where else []
        return files

    def stand(self, names, places):
        """Whether the names are defined in one of the places, where these define any."""
        places = [p for p in dict.fromkeys(places) if p in self.there.defined or p in self.there.folders]
        for line, name in names:
            crates = self.there.edits.get(name, ())
            if self.path == PROMISES and crates:
                self.must(len(crates) == 1, line, f"`{name}` is an edit of {', '.join(sorted(crates))}: say which")
                self.named.add((name, None))
            elif places:
                found = any(self.there.defines(place, name) for place in places)
                self.must(found, line, f"`{name}` is not defined in {' or '.join(places)}")

    def of_crate(self, names, crate):
        for line, name in names:
            self.must(self.there.in_crate(crate, name), line, f"`{name}` is no edit or name of `{crate}`")
            self.named.add((name, crate))


def edits_named(document, edits):
    """Every edit is named; where crates have edits of one name, with the crate beside it."""
    for name, crates in sorted(edits.items()):
        for crate in sorted(crates):
            named = (name, crate) in document.named or len(crates) == 1 and (name, None) in document.named
            beside = f" with (`{crate}`) beside it" if len(crates) > 1 else ""
            document.must(named, 0, f"does not name crates/{crate}/must-fail/{name}.edit{beside}")


def main():
    here = [path for path in DOCUMENTS if pathlib.Path(path).exists()]
    if not here:
        sys.exit("no document is here: run it from the repository's top")
    repository = Repository()
    wrong = checked = 0
    for path in here:
        document = Document(path, repository)
        document.check()
        if path == PROMISES:
            edits_named(document, repository.edits)
        for line, words in sorted(document.wrong):
            print(f"{path}:{line}: {words}" if line else f"{path} {words}")
        wrong += len(document.wrong)
        checked += document.checked
    print(f"{checked} names checked, {wrong} wrong")
    return 1 if wrong else 0


if __name__ == "__main__":
    sys.exit(main())
