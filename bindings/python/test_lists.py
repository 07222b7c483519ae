"""The project's lists of calls, lists/*.txt, through this module.

A command of a list goes to the library's export as the module declares it, and the answer has to
be the list's. Where the module's own call takes the same arguments it is made too, and has to
agree. The commands stand at the top of crates/replay/src/main.rt, and the form of a list in
harness/src/list_file.rs.
"""

from __future__ import annotations

import collections
import ctypes
import pathlib
import re
import unittest
from typing import Any, Callable, Counter, Dict, Iterator, List, NamedTuple, Optional, Tuple, Union

import conguraha
from conguraha import Answer, Direction, Mode, Refused, Session, _library, _Session, _Session32

FOLDER = pathlib.Path(__file__).resolve().parents[2] / "lists"

# ---- a list, and its commands with their answers


class Command(NamedTuple):
    """A command's line, counted from 1, and the answer's words after `#=` or `#>`."""

    line: int
    text: bytes
    published: bool
    answer: bytes

    def agrees(self, came: bytes) -> bool:
        """Is this the answer, so far as it is published?"""
        if self.published and self.answer.endswith(b" .."):
            return came.startswith(self.answer[: -len(b"..")])
        return came == self.answer


def is_command(line: bytes) -> bool:
    return line != b"" and not line.startswith(b"#")


def commands(path: pathlib.Path) -> Iterator[Command]:
    """The commands of a list. One without its answer, and an answer without one, is an error."""
    lines = path.read_bytes().split(b"\n")
    last = -1
    for index, line in enumerate(lines):
        after = lines[index + 1] if index + 1 < len(lines) else b""
        if is_command(line):
            last = index
            if after[:3] not in (b"#= ", b"#> "):
                raise ValueError(f"{path.name}:{index + 1}: a command without its answer")
            yield Command(index + 1, line, after.startswith(b"#= "), after[3:])
        elif line[:2] in (b"#=", b"#>") and last != index - 1:
            raise ValueError(f"{path.name}:{index + 1}: an answer with no command before it")


# ---- a command's words, by the letters of KINDS, below

MAX_TEXT = 65600
MAX_LINE = 2 * MAX_TEXT + 1920

FORMS: Dict[bytes, str] = {
    b"open": "mnwbb",
    b"open-counter": "mnnwbb",
    b"feed": "nonft",
    b"session": "mnnwnsnnb",
    b"show": "",
    b"units": "n",
    b"carry": "",
    b"keep": "",
    b"alike": "",
    b"forecast": "mnn",
    b"place": "nss",
    b"pad": "nonft",
    b"unpad": "nt",
    b"neighbour": "btn",
    b"block": "bbtnonf",
    b"steal": "wbbnonft",
    b"expand": "b",
    b"encrypt": "bs",
    b"decrypt": "bs",
}

Word = Union[int, bytes]


class Bad(Exception):
    """A line of another form."""


def number(word: bytes, most: int = 2**64 - 1) -> int:
    if not re.fullmatch(rb"[0-9]+", word):
        raise Bad
    digits = word.lstrip(b"0") or b"0"
    if len(digits) > 20 or int(digits) > most:
        raise Bad
    return int(digits)


def data(word: bytes) -> bytes:
    if word == b"-":
        return b""
    if not re.fullmatch(rb"([0-9a-f]{2})+", word):
        raise Bad
    return bytes.fromhex(word.decode())


def at_most(value: bytes, most: int) -> bytes:
    if len(value) > most:
        raise Bad
    return value


def block(word: bytes) -> bytes:
    value = data(word)
    if len(value) != 16:
        raise Bad
    return value


def one_of(word: bytes, names: Dict[bytes, int]) -> int:
    if word not in names:
        raise Bad
    return names[word]


def fill(word: bytes) -> int:
    if not re.fullmatch(rb"[0-9a-f]{2}", word):
        raise Bad
    return int(word, 16)


MODES = {mode.name.encode(): int(mode) for mode in Mode}
DIRECTIONS = {b"E": 0, b"D": 1}

KINDS: Dict[str, Callable[[bytes], Word]] = {
    "m": lambda word: one_of(word, MODES),
    "w": lambda word: one_of(word, DIRECTIONS),
    "n": number,
    "o": lambda word: number(word, MAX_TEXT),
    "f": fill,
    "b": data,
    "t": lambda word: at_most(data(word), MAX_TEXT),
    "s": block,
}


def read(line: bytes) -> Tuple[str, List[Any]]:
    """The command's name and the words after it."""
    name, *words = line.split(b" ")
    if len(line) > MAX_LINE or name not in FORMS or len(words) != len(FORMS[name]):
        raise Bad
    return name.decode(), [KINDS[kind](word) for kind, word in zip(FORMS[name], words)]


# ---- the commands run


def hexadecimal(value: bytes) -> str:
    return value.hex() or "-"


def copied(held: _Session) -> Session:
    """A session of the module with the same fields, whatever they are."""
    return Session(_Session.from_buffer_copy(held))


def same(expected: object, came: object) -> None:
    if expected != came:
        raise AssertionError(f"the export gives {expected!r}, and the module's call {came!r}")


def outcome(call: Callable[..., Any], *words: Any) -> Tuple[int, Any]:
    """What a call of the module answers and gives."""
    try:
        return 0, call(*words)
    except Refused as refused:
        return int(refused.answer), None


class Output:
    """An output that lies between bytes that no call may write."""

    MARGIN = bytes([0xA5]) * 32

    def __init__(self, length: int, filling: int) -> None:
        self.length = length
        self.filling = filling
        self.space = bytearray(self.MARGIN + bytes([filling]) * length + self.MARGIN)

    def lent(self, place: int) -> Tuple[object, int, int]:
        start = ctypes.c_char.from_buffer(self.space, len(self.MARGIN))
        return ctypes.byref(start), self.length, place

    def written(self) -> bytes:
        start, end = len(self.MARGIN), len(self.MARGIN) + self.length
        if self.space[:start] != self.MARGIN or self.space[end:] != self.MARGIN:
            raise AssertionError("a byte beside the output was written")
        return bytes(self.space[start:end])

    def with_text(self, place: int, text: Optional[bytes]) -> bytes:
        """The output where the text was written at the place, and else nothing."""
        expected = bytearray([self.filling]) * self.length
        if text is not None:
            expected[place : place + len(text)] = text
        return bytes(expected)


# Why the module's own call is not made.
NO_CALL = "the command sets, shows or keeps a session and calls nothing"
ITS_OWN_ROOM = "the module makes the room, and the command has too little"
WHOLE_BYTES = "the module takes messages of whole bytes that are there"
OTHER_FORM = "the line is of another form"
REASONS = (NO_CALL, ITS_OWN_ROOM, WHOLE_BYTES, OTHER_FORM)


class Replay:
    """What stays from line to line, with a method for each command."""

    def __init__(self) -> None:
        refused = _library.conguraha1_open(Mode.ECB, Direction.ENCRYPT, 128, b"", 0, b"", 0)
        self.session: _Session = refused.session
        self.kept: _Session = refused.session
        self.called = 0
        self.not_called: Counter[str] = collections.Counter()

    def answer(self, line: bytes) -> str:
        before = self.called + sum(self.not_called.values())
        try:
            name, words = read(line)
            answer: str = getattr(self, "do_" + name.replace("-", "_"))(*words)
        except Bad:
            self.not_called[OTHER_FORM] += 1
            answer = "?"
        if self.called + sum(self.not_called.values()) != before + 1:
            raise AssertionError("the module's own call was left out without a reason")
        return answer

    def compared(self, expected: object, came: object) -> None:
        """Counts a call of the module, which has to agree with the export's."""
        same(expected, came)
        self.called += 1

    def left_out(self, why: str) -> None:
        self.not_called[why] += 1

    # sessions

    def do_open(self, mode: int, n: int, direction: int, key: bytes, iv: bytes) -> str:
        opened = _library.conguraha1_open(mode, direction, n, key, len(key), iv, len(iv))
        return self.opened(opened, mode, direction, key, iv, n)

    def do_open_counter(
        self, mode: int, n: int, m: int, direction: int, key: bytes, iv: bytes
    ) -> str:
        lent = (key, len(key), iv, len(iv))
        opened = _library.conguraha1_open_counter(mode, direction, n, m, *lent)
        return self.opened(opened, mode, direction, key, iv, n, m)

    def opened(self, opened: Any, *words: Any) -> str:
        answered, session = outcome(Session.open, *words)
        held = bytes(opened.session) if opened.number == 0 else None
        self.compared((opened.number, held), (answered, session and bytes(session._held)))
        self.session = opened.session
        return f"{opened.number}"

    def do_session(
        self,
        mode: int,
        n: int,
        m: int,
        direction: int,
        rounds: int,
        register: bytes,
        units: int,
        closed: int,
        keys: bytes,
    ) -> str:
        if closed > 1 or len(keys) > conguraha.KEYS:
            raise Bad
        self.left_out(NO_CALL)
        held = _Session(units=units, mode=mode, n=n, m=m, rounds=rounds)
        held.keys[: len(keys)] = keys
        held.reg[:] = register
        held.decrypting, held.closed = direction, closed
        self.session = held
        return "set"

    def do_feed(self, bits: int, length: int, place: int, filling: int, text: bytes) -> str:
        out = Output(length, filling)
        session = copied(self.session)
        fed = _library.conguraha1_feed(self.session, text, len(text), bits, *out.lent(place))
        if fed.number == Answer.ROOM:
            self.left_out(ITS_OWN_ROOM)
        else:
            answered, gave = outcome(session.feed_bits, text, bits)
            self.compared(
                (fed.number, out.written(), bytes(fed.session), fed.runs),
                (answered, out.with_text(place, gave), bytes(session._held), session.runs),
            )
        self.session = fed.session
        progress = self.progress(fed.session)
        return f"{fed.number} {hexadecimal(out.written())} {progress} {fed.runs}"

    @staticmethod
    def progress(held: _Session) -> str:
        return f"{bytes(held.reg).hex()} {held.units} {held.closed}"

    def do_show(self) -> str:
        self.left_out(NO_CALL)
        held = self.session
        settings = f"{Mode(held.mode).name} {held.n} {held.m} {'ED'[held.decrypting]}"
        return f"{settings} {held.rounds} {self.progress(held)} {bytes(held.keys).hex()}"

    def do_units(self, count: int) -> str:
        self.left_out(NO_CALL)
        self.session = _Session.from_buffer_copy(self.session)
        self.session.units = count
        return f"{self.session.units}"

    def do_carry(self) -> str:
        held = self.session
        if held.units > 2**32 - 1:
            raise Bad
        older = _Session32(mode=held.mode, n=held.n, m=held.m, rounds=held.rounds)
        older.keys[:], older.reg[:], older.units = held.keys, held.reg, held.units
        older.decrypting, older.closed = held.decrypting, held.closed
        carried = _library.conguraha1_carry(older)
        session = Session.carry(
            mode=held.mode,
            direction=held.decrypting,
            n=held.n,
            m=held.m,
            rounds=held.rounds,
            keys=bytes(held.keys),
            register=bytes(held.reg),
            units=held.units,
            closed=bool(held.closed),
        )
        self.compared(bytes(carried), bytes(session._held))
        self.session = carried
        return f"{carried.units}"

    def do_keep(self) -> str:
        self.left_out(NO_CALL)
        self.kept = self.session
        return "kept"

    def do_alike(self) -> str:
        alike = _library.conguraha1_alike(self.session, self.kept)
        self.compared(bool(alike), copied(self.session).alike(copied(self.kept)))
        return ("no", "yes")[alike]

    # before a feed

    def do_forecast(self, mode: int, n: int, bits: int) -> str:
        cost = _library.conguraha1_forecast(mode, n, bits)
        answered, gave = outcome(conguraha.forecast, mode, n, bits)
        self.compared((cost.number, cost.bytes, cost.runs), (answered, *(gave or (0, 0))))
        return f"{cost.number} {cost.bytes} {cost.runs}"

    def do_place(self, m: int, iv: bytes, counter: bytes) -> str:
        place = _library.conguraha1_counter_place(iv, counter, m)
        increments = bytes(place.increments)
        answered, gave = outcome(conguraha.counter_place, iv, counter, m)
        self.compared((place.number, increments), (answered, (gave or 0).to_bytes(16, "big")))
        return f"{place.number} {increments.hex()}"

    # texts

    def do_pad(self, bits: int, length: int, place: int, filling: int, text: bytes) -> str:
        out = Output(length, filling)
        padded = _library.conguraha1_pad(text, len(text), bits, *out.lent(place))
        if padded.number == Answer.ROOM:
            self.left_out(ITS_OWN_ROOM)
        else:
            answered, gave = outcome(conguraha.pad, text, bits)
            self.compared(
                (padded.number, padded.bits, out.written()),
                (answered, 8 * len(gave or b""), out.with_text(place, gave)),
            )
        return f"{padded.number} {padded.bits} {hexadecimal(out.written())}"

    def do_unpad(self, bits: int, text: bytes) -> str:
        unpadded = _library.conguraha1_unpad(text, len(text), bits)
        answered, gave = outcome(conguraha.unpad, text, bits)
        self.compared((unpadded.number, unpadded.bits), (answered, gave or 0))
        return f"{unpadded.number} {unpadded.bits}"

    def do_steal(
        self,
        direction: int,
        key: bytes,
        iv: bytes,
        bits: int,
        length: int,
        place: int,
        filling: int,
        text: bytes,
    ) -> str:
        exports = (_library.conguraha1_cts_encrypt, _library.conguraha1_cts_decrypt)
        call = (conguraha.cts_encrypt, conguraha.cts_decrypt)[direction]
        out = Output(length, filling)
        lent = (key, len(key), iv, len(iv), text, len(text))
        answered = exports[direction](*lent, bits, *out.lent(place))
        if bits % 8 != 0 or bits > 8 * len(text):
            self.left_out(WHOLE_BYTES)
        elif answered == Answer.ROOM:
            self.left_out(ITS_OWN_ROOM)
        else:
            again, gave = outcome(call, key, iv, text[: bits // 8])
            self.compared((answered, out.written()), (again, out.with_text(place, gave)))
        return f"{answered} {hexadecimal(out.written())}"

    # one block

    def do_neighbour(self, iv: bytes, text: bytes, j: int) -> str:
        found = _library.conguraha1_cbc_neighbour(iv, len(iv), text, len(text), j)
        part = (iv, text)[found.source][found.offset : found.offset + found.length]
        answered, gave = outcome(conguraha.cbc_neighbour, iv, text, j)
        self.compared((found.number, part), (answered, gave or b""))
        return hexadecimal(part)

    def do_block(
        self,
        key: bytes,
        iv: bytes,
        text: bytes,
        j: int,
        length: int,
        place: int,
        filling: int,
    ) -> str:
        out = Output(length, filling)
        lent = (key, len(key), iv, len(iv), text, len(text))
        answered = _library.conguraha1_cbc_block(*lent, j, *out.lent(place))
        if answered == Answer.ROOM:
            self.left_out(ITS_OWN_ROOM)
        else:
            again, gave = outcome(conguraha.cbc_block, key, iv, text, j)
            self.compared((answered, out.written()), (again, out.with_text(place, gave)))
        return f"{answered} {hexadecimal(out.written())}"

    def do_expand(self, key: bytes) -> str:
        rounds = ctypes.c_size_t(255)
        out = Output(conguraha.KEYS, 0xEE)
        pointer = out.lent(0)[0]
        answered = _library.conguraha1_aes_expand(key, len(key), ctypes.byref(rounds), pointer)
        again, gave = outcome(conguraha.expand_key, key)
        expected = gave or (0, bytes(conguraha.KEYS))
        self.compared((answered, rounds.value, out.written()), (again, *expected))
        return f"{answered} {rounds.value} {out.written().hex()}"

    def do_encrypt(self, key: bytes, plain: bytes) -> str:
        export = _library.conguraha1_aes_encrypt
        return self.one_block(export, conguraha.encrypt_block, key, plain)

    def do_decrypt(self, key: bytes, sent: bytes) -> str:
        export = _library.conguraha1_aes_decrypt
        return self.one_block(export, conguraha.decrypt_block, key, sent)

    def one_block(self, export: Any, call: Callable[..., bytes], key: bytes, text: bytes) -> str:
        out = Output(conguraha.BLOCK, 0xEE)
        answered = export(key, len(key), text, out.lent(0)[0])
        again, gave = outcome(call, key, text)
        self.compared((answered, out.written()), (again, gave or bytes(16)))
        return f"{answered} {out.written().hex()}"


class ListsTest(unittest.TestCase):
    def test_the_lists_have_every_command(self) -> None:
        names = {
            command.text.split(b" ")[0]
            for path in FOLDER.glob("*.txt")
            for command in commands(path)
            if command.answer != b"?"
        }
        self.assertEqual(names, set(FORMS))

    def test_every_answer(self) -> None:
        answers = called = 0
        not_called: Counter[str] = collections.Counter()
        for path in sorted(FOLDER.glob("*.txt")):
            with self.subTest(path.name):
                replay = Replay()
                answers += self.compare(path, replay)
                called += replay.called
                not_called += replay.not_called
        self.assertGreater(answers, 4000)
        self.assertEqual(answers, called + sum(not_called.values()))
        self.assertLessEqual(set(not_called), set(REASONS))
        said = [f"\nlists: {answers} answers compared; {called} by the module's own call too"]
        said += [f"lists: {count} not by that: {why}" for why, count in not_called.items()]
        print("\n".join(said), flush=True)

    def compare(self, path: pathlib.Path, replay: Replay) -> int:
        """Runs a list, and counts the answers. None of its commands is passed over."""
        count = 0
        for command in commands(path):
            place = f"{path.name}:{command.line}"
            try:
                came = replay.answer(command.text).encode()
            except AssertionError as why:
                self.fail(f"{place}: {why}")
            if not command.agrees(came):
                self.fail(f"{place}: {command.answer!r} is expected, {came!r} came")
            count += 1
        lines = path.read_bytes().split(b"\n")
        self.assertEqual(count, sum(map(is_command, lines)), path.name)
        return count


if __name__ == "__main__":
    unittest.main()
