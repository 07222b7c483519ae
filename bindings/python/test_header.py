"""The module held against include/conguraha.h, where that is there."""

from __future__ import annotations

import ctypes
import pathlib
import re
import unittest
from typing import Any, Dict, Match, Tuple

import conguraha
from conguraha import Answer, Direction, Mode

PATH = pathlib.Path(__file__).resolve().parents[2] / "include" / "conguraha.h"

STRUCTS = {
    "session": conguraha._Session,
    "session32": conguraha._Session32,
    "opened": conguraha._Opened,
    "fed": conguraha._Fed,
    "cost": conguraha._Cost,
    "place": conguraha._Place,
    "length": conguraha._Length,
    "neighbour": conguraha._Neighbour,
}

# How a C type is written in the declarations, with its name taken out; and as the module has it.
TYPES: Dict[str, Any] = {
    "uint8_t": ctypes.c_uint8,
    "uint32_t": ctypes.c_uint32,
    "uint64_t": ctypes.c_uint64,
    "size_t": ctypes.c_size_t,
    "size_t *": ctypes.POINTER(ctypes.c_size_t),
    "const uint8_t *": ctypes.c_char_p,
    "uint8_t *": ctypes.POINTER(ctypes.c_char),
    **{f"struct conguraha_{name}": struct for name, struct in STRUCTS.items()},
}


def found(pattern: str, text: str) -> Match[str]:
    """The first place with the pattern, where `.` is any character and `^` the start of a line."""
    match = re.search(pattern, text, re.M | re.S)
    if match is None:
        raise AssertionError(f"not in the header: {pattern}")
    return match


def type_of(declaration: str) -> Any:
    """The type of `const uint8_t *input`, or of `uint8_t keys[240]`, which is passed so too."""
    parts = found(r"^(.*?) ?(\*?)(\w+)(\[\w+\])?$", " ".join(declaration.split()))
    return TYPES[f"{parts[1]} *" if parts[2] or parts[4] else parts[1]]


@unittest.skipUnless(PATH.exists(), f"{PATH} is not there")
class HeaderTest(unittest.TestCase):
    text: str

    @classmethod
    def setUpClass(cls) -> None:
        cls.text = PATH.read_text()

    def constants(self) -> Dict[str, str]:
        return dict(re.findall(r"^#define CONGURAHA_(\w+) +([^\s()]+)", self.text, re.M))

    def body(self, kind: str, name: str) -> str:
        """What stands between the braces of a struct or an enum, without comments."""
        body = found(rf"^{kind} conguraha_{name} {{(.*?)}};", self.text)[1]
        return re.sub(r"/\*.*?\*/", "", body, flags=re.S)

    def values(self, name: str) -> Dict[str, int]:
        pairs = re.findall(r"CONGURAHA_(\w+) = (\d+)", self.body("enum", name))
        return {word: int(number) for word, number in pairs}

    def test_version(self) -> None:
        constants = self.constants()
        self.assertEqual(constants["VERSION"], f'"{conguraha.__version__}"')
        parts = [constants[f"VERSION_{part}"] for part in ("MAJOR", "MINOR", "PATCH")]
        self.assertEqual(".".join(parts), conguraha.__version__)
        self.assertEqual(conguraha._FILE, f"libconguraha.so.{parts[0]}")

    def test_constants(self) -> None:
        constants = self.constants()
        for name in ("BLOCK", "KEYS", "MAX_BITS", "MAX_BYTES"):
            self.assertEqual(int(constants[name]), getattr(conguraha, name), name)
        self.assertEqual(constants["MAX_UNITS"], "UINT64_MAX")
        self.assertEqual(conguraha.MAX_UNITS, 2**64 - 1)

    def test_numbers(self) -> None:
        for name, kind in (("mode", Mode), ("direction", Direction), ("answer", Answer)):
            expected = {member.name: member.value for member in kind}
            self.assertEqual(self.values(name), expected, name)

    def test_sentences(self) -> None:
        switch = found(r"switch \(answer\) {(.*?)^    }", self.text)[1]
        rows = re.findall(r'(case CONGURAHA_(\w+)|default):\s+return "(.*?)";', switch)
        sentences = {name: sentence for _, name, sentence in rows if name}
        self.assertEqual(len(rows), len(Answer) + 1)
        self.assertEqual(sentences, {answer.name: answer.text for answer in Answer})

    def test_fields(self) -> None:
        for name, struct in STRUCTS.items():
            fields = re.findall(r"([\w ]+) (\w+)(?:\[(\w+)\])?;", self.body("struct", name))
            expected = [(field, self.field(kind, size)) for kind, field, size in fields]
            self.assertEqual(struct._fields_, expected, name)

    def field(self, kind: str, size: str) -> Any:
        element = TYPES[kind.strip()]
        return element * int(self.constants().get(size[10:], size)) if size else element

    def test_layout(self) -> None:
        fields = re.findall(r"CONGURAHA_FIELD\((\w+), (\w+), (\d+), (\d+)\);", self.text)
        sizes = re.findall(r"sizeof\(struct conguraha_(\w+)\) == (\d+)", self.text)
        self.assertEqual(len(fields), sum(len(struct._fields_) for struct in STRUCTS.values()))
        for name, field, offset, size in fields:
            place = getattr(STRUCTS[name], field)
            self.assertEqual((place.offset, place.size), (int(offset), int(size)), (name, field))
        expected = {STRUCTS[name]: int(size) for name, size in sizes}
        self.assertEqual(conguraha._SIZES, expected)

    def test_exports(self) -> None:
        declared = re.findall(
            r"^(?:[A-Z_]+ )?([a-z][\w ]+?)\s(conguraha1_\w+)\(([^;]*)\);", self.text, re.M
        )
        expected: Dict[str, Tuple[Any, Tuple[Any, ...]]] = {
            name: (TYPES[result], tuple(map(type_of, parameters.split(","))))
            for result, name, parameters in declared
        }
        self.assertEqual(set(re.findall(r"conguraha1_\w+", self.text)), set(expected))
        self.assertEqual(conguraha._EXPORTS, expected)


if __name__ == "__main__":
    unittest.main()
