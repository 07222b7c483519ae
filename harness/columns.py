"""Checks that prose has at most 120 columns: paragraphs and lists of the documents (tables and blocks of code may be
longer), comments that have a line of their own, and every line of C and C++.

    python3 harness/columns.py      from the repository's top; status 1 where a line is longer, with a line for each"""
import pathlib
import re
import subprocess
import sys

MOST = 120
MARKS = {".antt": "--", ".edit": "#", ".py": "#", ".rs": "//", ".rt": "//", ".sh": "#", "": "#"}
MARKS.update({suffix: "" for suffix in (".c", ".cpp", ".h", ".hpp")})


def files():
    listed = ["git", "ls-files", "-z", "--cached", "--others", "--exclude-standard"]
    names = subprocess.run(listed, stdout=subprocess.PIPE, check=True, encoding="utf-8").stdout
    paths = [pathlib.Path(name) for name in names.split("\0") if name]
    return [path for path in paths if path.is_file() and path.parts[0] != "lists"]


def prose(lines):
    """The lines of a document that are neither code nor in a table, each with its number."""
    code = False
    for number, line in enumerate(lines, 1):
        if line.startswith("```"):
            code = not code
        elif not code and not line.startswith("    ") and not line.lstrip().startswith("|"):
            yield number, line


def comments(lines, mark):
    return [(number, line) for number, line in enumerate(lines, 1) if line.lstrip().startswith(mark)]


def long_lines(path):
    try:
        lines = path.read_text(encoding="utf-8").split("\n")
    except UnicodeDecodeError:
        return []
    if path.suffix == ".md":
        found = prose(lines)
    elif path.suffix in MARKS and (path.suffix or re.match("#!", lines[0])) or path.name == "crates.txt":
        found = comments(lines, MARKS.get(path.suffix, "#"))
    else:
        found = []
    return [(number, line) for number, line in found if len(line) > MOST]


def main():
    wrong = [(path, *found) for path in files() for found in long_lines(path)]
    for path, number, line in wrong:
        print(f"{path}:{number}: {len(line)} columns")
    print(f"{len(wrong)} lines are longer than {MOST} columns")
    return 1 if wrong else 0


if __name__ == "__main__":
    sys.exit(main())
