"""AES in the modes ECB, CBC, CFB with segments of 1 to 128 bits, OFB and CTR, over libconguraha.

The code behind it is proved: what each call answers and gives equals its rule, which for AES and
the modes is that of FIPS 197 and SP 800-38A, for every input. A session is opened once and fed as often as there is text:

    from conguraha import Direction, Mode, Session

    with Session.open(Mode.CFB, Direction.DECRYPT, key, iv, n=8) as session:
        text = session.feed(received)

A call that is not done raises `Refused`, whose `answer` says why: it is the first answer that
applies, of those that stand at the call in the order in which they are asked.

- Data is bytes, bytearray or memoryview, and anything else a TypeError. What can be written is
  copied for the call, so that it is free again even while a refusal is looked at.
- Numbers are whole. One below 0, or one that 64 bits do not hold, is a ValueError, and every
  other one is accepted or refused: none wraps round.
- The lock of the interpreter is released during a call, so threads work at the same time. One
  session is for one thread at a time: two feeds at once may use one keystream twice.
- A session holds round keys: `Session.wipe` clears it, and so does the end of a `with` block.
  What the interpreter and the library had on the way, on the stack and in freed memory, and what
  a call returned, is not cleared.

The library is the file that the environment variable CONGURAHA_LIBRARY names; else the one of
the installation that this module is part of; else the one that the system's loader finds.
"""

from __future__ import annotations

import ctypes
import ctypes.util
import operator
import os
import pathlib
from enum import IntEnum
from types import TracebackType
from typing import Any, Dict, Iterator, NamedTuple, NoReturn, Optional, Tuple, Type, Union

__all__ = [
    "Answer",
    "BLOCK",
    "BytesLike",
    "Cost",
    "Direction",
    "KEYS",
    "MAX_BITS",
    "MAX_BYTES",
    "MAX_UNITS",
    "Mode",
    "Refused",
    "RoundKeys",
    "Session",
    "cbc_block",
    "cbc_neighbour",
    "counter_place",
    "cts_decrypt",
    "cts_encrypt",
    "decrypt_block",
    "encrypt_block",
    "expand_key",
    "forecast",
    "pad",
    "unpad",
]

__version__ = "1.0.0"

BytesLike = Union[bytes, bytearray, memoryview]

BLOCK = 16
"""Bytes of a block, and of an IV."""
KEYS = 240
"""Bytes of the round keys."""
MAX_BITS = 524288
"""Bits of the largest feed."""
MAX_BYTES = 65536
"""Its bytes."""
MAX_UNITS = 2**64 - 1
"""Units that one session processes."""


class Mode(IntEnum):
    """The mode of a session."""

    ECB = 0
    CBC = 1
    CFB = 2
    OFB = 3
    CTR = 4


class Direction(IntEnum):
    """What the feeds of a session do."""

    ENCRYPT = 0
    DECRYPT = 1


# ---- answers


class Answer(IntEnum):
    """What a call answers. `text` is a sentence for it."""

    OK = 0
    KEY_LENGTH = 1
    IV_LENGTH = 2
    UNIT_LENGTH = 3
    NOT_OPENED = 4
    CLOSED = 5
    BITS = 6
    PART_UNIT = 7
    ROOM = 8
    """No call of this module: each makes room for what it gives."""
    UNIT_LIMIT = 9
    NO_BLOCK = 11
    NOT_FORMED = 12
    """No call of the library: the program modeline answers it."""
    MESSAGE_LENGTH = 13
    COUNTER_LENGTH = 14
    COUNTER_LIMIT = 15
    OTHER_MESSAGE = 16
    NO_MODE = 64
    OVERLAP = 65
    """No call of this module: what each gives is new."""

    @property
    def text(self) -> str:
        """The answer as a sentence in English."""
        return _TEXTS[self]


_TEXTS: Dict[Answer, str] = {
    Answer.OK: "done",
    Answer.KEY_LENGTH: "the key is not 16, 24 or 32 bytes long",
    Answer.IV_LENGTH: "the IV is not 16 bytes long, or in ECB not empty",
    Answer.UNIT_LENGTH: "n is not 1 to 128 in CFB, or not 128 in another mode",
    Answer.NOT_OPENED: "the session was not opened, or its opening was refused",
    Answer.CLOSED: "the session is closed: an earlier feed in OFB or CTR was not whole blocks",
    Answer.BITS: "there are more bits than the input has, or than one call takes",
    Answer.PART_UNIT: "the bits are not whole units (for unpad, not one or more whole blocks)",
    Answer.ROOM: "the output has too few bytes for what would be written",
    Answer.UNIT_LIMIT: "the session would have processed more than 2^64 - 1 units",
    Answer.NO_BLOCK: "the ciphertext is not whole blocks, or has no block of that number",
    Answer.NOT_FORMED: "the text does not have the form that modeline reads",
    Answer.MESSAGE_LENGTH: "the message is not whole bytes, or not longer than 16 bytes",
    Answer.COUNTER_LENGTH: "m is not 1 to 128 in CTR, or not 128 in another mode",
    Answer.COUNTER_LIMIT: "the session would have used more than its 2^m counter blocks",
    Answer.OTHER_MESSAGE: (
        "the counter block is not of this message: its upper bits are not the IV's"
    ),
    Answer.NO_MODE: "the mode is none of the five",
    Answer.OVERLAP: "the output overlaps the input, or something else that is handed over",
}


class Refused(Exception):
    """A call was refused, and has changed nothing. `answer` says why.

    It is a number alone where a later library has an answer that this module does not know.
    """

    def __init__(self, answer: Union[Answer, int]) -> None:
        super().__init__(answer)
        self.answer = answer

    def __str__(self) -> str:
        if isinstance(self.answer, Answer):
            return self.answer.text
        return f"an answer that this module does not know: {self.answer}"


def _accept(number: int) -> None:
    """Raises Refused where the number is that of a refusal."""
    if number == Answer.OK:
        return
    raise Refused(Answer(number) if number in iter(Answer) else number)


# ---- the structs of conguraha.h, which go by value, and what the library exports


class _Session(ctypes.Structure):
    """struct conguraha_session"""

    _fields_ = [
        ("units", ctypes.c_uint64),
        ("mode", ctypes.c_size_t),
        ("n", ctypes.c_size_t),
        ("m", ctypes.c_size_t),
        ("rounds", ctypes.c_size_t),
        ("keys", ctypes.c_uint8 * KEYS),
        ("reg", ctypes.c_uint8 * BLOCK),
        ("decrypting", ctypes.c_uint8),
        ("closed", ctypes.c_uint8),
        ("spare", ctypes.c_uint8 * 6),
    ]
    units: int
    mode: int
    n: int
    m: int
    rounds: int
    keys: ctypes.Array[ctypes.c_uint8]
    reg: ctypes.Array[ctypes.c_uint8]
    decrypting: int
    closed: int
    spare: ctypes.Array[ctypes.c_uint8]


class _Session32(ctypes.Structure):
    """struct conguraha_session32"""

    _fields_ = [
        ("mode", ctypes.c_size_t),
        ("decrypting", ctypes.c_uint8),
        ("spare", ctypes.c_uint8 * 7),
        ("n", ctypes.c_size_t),
        ("m", ctypes.c_size_t),
        ("rounds", ctypes.c_size_t),
        ("keys", ctypes.c_uint8 * KEYS),
        ("reg", ctypes.c_uint8 * BLOCK),
        ("units", ctypes.c_uint32),
        ("closed", ctypes.c_uint8),
        ("spare2", ctypes.c_uint8 * 3),
    ]
    mode: int
    decrypting: int
    spare: ctypes.Array[ctypes.c_uint8]
    n: int
    m: int
    rounds: int
    keys: ctypes.Array[ctypes.c_uint8]
    reg: ctypes.Array[ctypes.c_uint8]
    units: int
    closed: int
    spare2: ctypes.Array[ctypes.c_uint8]


class _Opened(ctypes.Structure):
    """struct conguraha_opened"""

    _fields_ = [("session", _Session), ("number", ctypes.c_size_t)]
    session: _Session
    number: int


class _Fed(ctypes.Structure):
    """struct conguraha_fed"""

    _fields_ = [
        ("session", _Session),
        ("runs", ctypes.c_size_t),
        ("number", ctypes.c_size_t),
    ]
    session: _Session
    runs: int
    number: int


class _Cost(ctypes.Structure):
    """struct conguraha_cost"""

    _fields_ = [
        ("bytes", ctypes.c_size_t),
        ("runs", ctypes.c_size_t),
        ("number", ctypes.c_size_t),
    ]
    bytes: int
    runs: int
    number: int


class _Place(ctypes.Structure):
    """struct conguraha_place"""

    _fields_ = [("increments", ctypes.c_uint8 * BLOCK), ("number", ctypes.c_size_t)]
    increments: ctypes.Array[ctypes.c_uint8]
    number: int


class _Length(ctypes.Structure):
    """struct conguraha_length"""

    _fields_ = [("bits", ctypes.c_size_t), ("number", ctypes.c_size_t)]
    bits: int
    number: int


class _Neighbour(ctypes.Structure):
    """struct conguraha_neighbour"""

    _fields_ = [
        ("offset", ctypes.c_size_t),
        ("length", ctypes.c_size_t),
        ("source", ctypes.c_size_t),
        ("number", ctypes.c_size_t),
    ]
    offset: int
    length: int
    source: int
    number: int


# The sizes that the library has.
_SIZES: Dict[Type[ctypes.Structure], int] = {
    _Session: 304,
    _Session32: 304,
    _Opened: 312,
    _Fed: 320,
    _Cost: 24,
    _Place: 24,
    _Length: 16,
    _Neighbour: 32,
}

_BYTE = ctypes.c_uint8
_WORD = ctypes.c_size_t
_TO_WORD = ctypes.POINTER(ctypes.c_size_t)
# A pointer to bytes that are read, which takes bytes as they are; and to bytes that are written.
_READ = ctypes.c_char_p
_WRITTEN = ctypes.POINTER(ctypes.c_char)
_INPUT = (_READ, _WORD)
_OUTPUT = (_WRITTEN, _WORD, _WORD)

# The result and the arguments of each export.
_EXPORTS: Dict[str, Tuple[Any, Tuple[Any, ...]]] = {
    "conguraha1_open": (_Opened, (_WORD, _BYTE, _WORD, *_INPUT, *_INPUT)),
    "conguraha1_open_counter": (_Opened, (_WORD, _BYTE, _WORD, _WORD, *_INPUT, *_INPUT)),
    "conguraha1_feed": (_Fed, (_Session, *_INPUT, _WORD, *_OUTPUT)),
    "conguraha1_carry": (_Session, (_Session32,)),
    "conguraha1_alike": (_BYTE, (_Session, _Session)),
    "conguraha1_forecast": (_Cost, (_WORD, _WORD, _WORD)),
    "conguraha1_counter_place": (_Place, (_READ, _READ, _WORD)),
    "conguraha1_pad": (_Length, (*_INPUT, _WORD, *_OUTPUT)),
    "conguraha1_unpad": (_Length, (*_INPUT, _WORD)),
    "conguraha1_cts_encrypt": (_BYTE, (*_INPUT, *_INPUT, *_INPUT, _WORD, *_OUTPUT)),
    "conguraha1_cts_decrypt": (_BYTE, (*_INPUT, *_INPUT, *_INPUT, _WORD, *_OUTPUT)),
    "conguraha1_cbc_block": (_BYTE, (*_INPUT, *_INPUT, *_INPUT, _WORD, *_OUTPUT)),
    "conguraha1_cbc_neighbour": (_Neighbour, (*_INPUT, *_INPUT, _WORD)),
    "conguraha1_aes_expand": (_BYTE, (*_INPUT, _TO_WORD, _WRITTEN)),
    "conguraha1_aes_encrypt": (_BYTE, (*_INPUT, _READ, _WRITTEN)),
    "conguraha1_aes_decrypt": (_BYTE, (*_INPUT, _READ, _WRITTEN)),
}

_FILE = "libconguraha.so.1"


def _candidates() -> Iterator[str]:
    """What is tried where CONGURAHA_LIBRARY names no library, in this order."""
    folder = pathlib.Path(__file__).resolve().parent
    if folder.parts[-3:] == ("share", "conguraha", "python"):
        yield str(folder.parents[2] / "lib" / _FILE)
    yield _FILE
    found = ctypes.util.find_library("conguraha")
    if found is not None:
        yield found


def _named(path: str) -> ctypes.CDLL:
    """The library that CONGURAHA_LIBRARY names, and no other."""
    try:
        return ctypes.CDLL(os.path.abspath(path))
    except OSError as why:
        raise ImportError(f"CONGURAHA_LIBRARY names no library that loads: {why}") from why


def _find() -> ctypes.CDLL:
    path = os.environ.get("CONGURAHA_LIBRARY")
    if path:
        return _named(path)
    tried = []
    for candidate in _candidates():
        try:
            return ctypes.CDLL(candidate)
        except OSError as why:
            tried.append(str(why))
    raise ImportError(
        f"{_FILE} was not found: install the library, or set CONGURAHA_LIBRARY to the path of"
        f" that file ({'; '.join(tried)})"
    )


def _check_sizes() -> None:
    for structure, size in _SIZES.items():
        if ctypes.sizeof(structure) != size:
            raise ImportError(
                f"libconguraha is for machines of 64 bits: {structure.__doc__} has"
                f" {ctypes.sizeof(structure)} bytes here, and {size} there"
            )


def _declare(library: ctypes.CDLL) -> ctypes.CDLL:
    """The library, once each export has its types."""
    for name, (result, arguments) in _EXPORTS.items():
        function = getattr(library, name, None)
        if function is None:
            raise ImportError(f"{library._name} is no libconguraha of this form: no {name}")
        function.restype = result
        function.argtypes = arguments
    return library


_check_sizes()
_library = _declare(_find())


# ---- arguments


def _word(number: int, name: str, most: int = 2**64 - 1) -> int:
    """The number, which is from 0 to `most`."""
    value = operator.index(number)
    if not 0 <= value <= most:
        raise ValueError(f"{name} is not from 0 to 2^{most.bit_length()} - 1")
    return value


def _direction(direction: int) -> Direction:
    return Direction(operator.index(direction))


def _row(data: BytesLike, name: str) -> bytes:
    """The data as bytes, which nobody writes."""
    if isinstance(data, bytes):
        return data
    if not isinstance(data, (bytearray, memoryview)):
        raise TypeError(f"{name} is not bytes, bytearray or memoryview: {type(data).__name__}")
    return memoryview(data).tobytes()


def _lent(data: BytesLike, name: str) -> Tuple[object, int]:
    """A pointer to the data, and how many bytes it has. The data lives as long as the pointer."""
    row = _row(data, name)
    return row, memoryview(row).nbytes  # len of a subclass may say anything


def _row_of(data: BytesLike, length: int, name: str) -> bytes:
    """The data as bytes, of that length."""
    row = _row(data, name)
    if memoryview(row).nbytes != length:
        raise ValueError(f"{name} is not {length} bytes long")
    return row


def _lent_block(data: BytesLike, name: str) -> object:
    """A pointer to the data, which is a block."""
    return _lent(_row_of(data, BLOCK, name), name)[0]


def _written(out: bytearray) -> object:
    """A pointer to the output."""
    return ctypes.byref(ctypes.c_char.from_buffer(out)) if out else None


def _room(out: bytearray) -> Tuple[object, int, int]:
    """The whole output, as most calls take it: a pointer, the length, and the place 0."""
    return _written(out), len(out), 0


def _output(bits: int) -> bytearray:
    """Room for that many bits, or for the most that a call gives."""
    return bytearray(min((bits + 7) // 8, MAX_BYTES))


def _copy(source: _Session, target: _Session) -> None:
    ctypes.memmove(ctypes.addressof(target), ctypes.addressof(source), ctypes.sizeof(_Session))


def _clear(structure: ctypes.Structure) -> None:
    ctypes.memset(ctypes.addressof(structure), 0, ctypes.sizeof(structure))


# ---- sessions


class Session:
    """AES under one key in one mode and direction, with its state between two feeds.

    `open` and `carry` make one. It is for one thread at a time. It holds round keys, which are
    neither shown nor pickled; `wipe` clears them.
    """

    __slots__ = ("_held", "_runs")

    def __init__(self, held: _Session) -> None:
        """Not to be called: `open` and `carry` do."""
        self._held = held
        self._runs = 0

    @classmethod
    def open(
        cls,
        mode: int,
        direction: int,
        key: BytesLike,
        iv: BytesLike,
        n: int = 128,
        m: int = 128,
    ) -> Session:
        """Opens a session.

        The mode is a Mode or its number, the direction a Direction. `n` is the segment's bits in
        CFB, and 128 in the other modes. The IV has 16 bytes, and none in ECB; it is never used
        twice to encrypt under one key (SP 800-38A, appendices B and C, says how to choose it).

        In CTR the lowest `m` bits of the IV count up, modulo 2^m, and the other bits stay, so
        that they can name the message. Such a session processes at most 2^m units. The other
        modes take no other m than 128.

        Answers: NO_MODE, KEY_LENGTH, IV_LENGTH, UNIT_LENGTH, COUNTER_LENGTH.
        """
        opened: _Opened = _library.conguraha1_open_counter(
            _word(mode, "mode"),
            _direction(direction),
            _word(n, "n"),
            _word(m, "m"),
            *_lent(key, "key"),
            *_lent(iv, "iv"),
        )
        _accept(opened.number)
        return cls(opened.session)

    @classmethod
    def carry(
        cls,
        *,
        mode: int,
        direction: int,
        n: int,
        m: int,
        rounds: int,
        keys: BytesLike,
        register: BytesLike,
        units: int,
        closed: bool,
    ) -> Session:
        """Carries a session of the older release over, whose units were a 32-bit number.

        Every part stays as it was; `keys` are the 240 bytes of the round keys. Feeds then answer
        and give what they did there; and where that release answered UNIT_LIMIT, having
        4,294,967,295 for its limit, they go on, or answer COUNTER_LIMIT. It refuses nothing: a
        session that is none answers NOT_OPENED or NO_MODE to every feed. From then on feed the
        new one alone: both are the same session.
        """
        older = _Session32(
            mode=_word(mode, "mode"),
            decrypting=_direction(direction),
            n=_word(n, "n"),
            m=_word(m, "m"),
            rounds=_word(rounds, "rounds"),
            units=_word(units, "units", 2**32 - 1),
            closed=bool(closed),
        )
        older.keys[:] = _row_of(keys, KEYS, "keys")
        older.reg[:] = _row_of(register, BLOCK, "register")
        held: _Session = _library.conguraha1_carry(older)
        _clear(older)
        return cls(held)

    def feed(self, data: BytesLike) -> bytes:
        """Feeds the data, and gives as many bytes.

        How a text is cut into feeds changes nothing in what they give, as long as each cut is
        between units. In OFB and CTR the last feed need not be whole blocks: it closes the
        session. A feed of 0 bytes changes nothing. The largest has 65,536 bytes: a longer text is
        for the caller to cut.

        Answers: NO_MODE, NOT_OPENED, CLOSED, BITS (more than MAX_BYTES), PART_UNIT, UNIT_LIMIT,
        COUNTER_LIMIT. Where it is refused the session stays as it was.
        """
        pointer, length = _lent(data, "data")
        return self._feed(pointer, length, 8 * length)

    def feed_bits(self, data: BytesLike, bits: int) -> bytes:
        """Feeds the first `bits` bits of the data, from the highest bit of its first byte on.

        It gives as many, in whole bytes; the spare bits of the last one are 0. `bits` are not
        bytes: 64 bytes are 512 bits.

        Answers: those of `feed`; BITS also where the data has fewer bits.
        """
        return self._feed(*_lent(data, "data"), _word(bits, "bits"))

    def _feed(self, pointer: object, length: int, bits: int) -> bytes:
        out = _output(bits)
        fed: _Fed = _library.conguraha1_feed(self._held, pointer, length, bits, *_room(out))
        self._runs = fed.runs
        number = fed.number
        if number == Answer.OK:
            _copy(fed.session, self._held)
        _clear(fed)
        _accept(number)
        return bytes(out)

    def copy(self) -> Session:
        """A session of its own in the same state.

        To encrypt with both is to use one keystream twice.
        """
        return type(self)(_Session.from_buffer_copy(self._held))

    def alike(self, other: Session) -> bool:
        """Whether the two are alike.

        They are where mode, direction, n, m, rounds, the round keys in use and the register are
        equal, and the mode is one. Units and closing are not compared.
        """
        if not isinstance(other, Session):
            raise TypeError(f"other is no Session: {type(other).__name__}")
        return bool(_library.conguraha1_alike(self._held, other._held))

    def wipe(self) -> None:
        """Writes 0 to the whole session, which answers NOT_OPENED to every feed from then on."""
        _clear(self._held)
        self._runs = 0

    @property
    def mode(self) -> Mode:
        """The mode. A carried session whose mode is none of the five raises ValueError."""
        return Mode(self._held.mode)

    @property
    def direction(self) -> Direction:
        """What the feeds do."""
        return Direction.DECRYPT if self._held.decrypting else Direction.ENCRYPT

    @property
    def n(self) -> int:
        """Bits of a unit: the segment length in CFB, 128 in the other modes."""
        return self._held.n

    @property
    def m(self) -> int:
        """Bits of the counter in CTR, the lowest of the block; 128 in the other modes."""
        return self._held.m

    @property
    def rounds(self) -> int:
        """Rounds of AES under this key: 10, 12 or 14."""
        return self._held.rounds

    @property
    def register(self) -> bytes:
        """The register, 16 bytes: the IV at first. In OFB it is keystream: keep it secret."""
        return bytes(self._held.reg)

    @property
    def units(self) -> int:
        """Units processed so far."""
        return self._held.units

    @property
    def closed(self) -> bool:
        """Whether a feed in OFB or CTR was not whole blocks, which ends the session."""
        return bool(self._held.closed)

    @property
    def runs(self) -> int:
        """Runs of the block cipher in the last feed of this object.

        One for each unit, a short one included; 0 where the feed was refused.
        """
        return self._runs

    def __enter__(self) -> Session:
        return self

    def __exit__(
        self,
        kind: Optional[Type[BaseException]],
        raised: Optional[BaseException],
        trace: Optional[TracebackType],
    ) -> None:
        self.wipe()

    def __copy__(self) -> Session:
        return self.copy()

    def __deepcopy__(self, memo: Dict[int, Any]) -> Session:
        return self.copy()

    def __reduce__(self) -> NoReturn:
        raise TypeError("a session holds round keys: it is not pickled")

    def __repr__(self) -> str:
        held = self._held
        names = {int(mode): mode.name for mode in Mode}
        return (
            f"<Session {names.get(held.mode, 'of no mode')} {self.direction.name}"
            f" n={held.n} m={held.m} rounds={held.rounds} units={held.units}"
            f" closed={self.closed}>"
        )


# ---- before a feed, and of its counter


class Cost(NamedTuple):
    """The bytes that a feed will give, and its runs of the block cipher."""

    bytes: int
    runs: int


def forecast(mode: int, n: int, bits: int) -> Cost:
    """What a feed of that many bits will cost; nothing is run.

    A feed that is accepted gives that many bytes and makes that many runs of the block cipher.

    Answers: NO_MODE, UNIT_LENGTH, BITS (more than MAX_BITS), PART_UNIT.
    """
    cost: _Cost = _library.conguraha1_forecast(
        _word(mode, "mode"), _word(n, "n"), _word(bits, "bits")
    )
    _accept(cost.number)
    return Cost(cost.bytes, cost.runs)


def counter_place(iv: BytesLike, block: BytesLike, m: int) -> int:
    """The place of a counter block in its message.

    It is how often the IV was counted up in its lowest m bits to give the block. The counter
    block of unit t of a session has the place t. An IV or a block that is not 16 bytes long is a
    ValueError.

    Answers: COUNTER_LENGTH, OTHER_MESSAGE.
    """
    place: _Place = _library.conguraha1_counter_place(
        _lent_block(iv, "iv"), _lent_block(block, "block"), _word(m, "m")
    )
    _accept(place.number)
    return int.from_bytes(bytes(place.increments), "big")


# ---- padding: one 1 bit, then the fewest 0 bits that reach whole blocks


def pad(data: BytesLike, bits: Optional[int] = None) -> bytes:
    """The first `bits` bits of the data, or all of it, with padding: whole blocks.

    The padding is a 1 bit, then the fewest 0 bits that reach whole blocks (SP 800-38A,
    ISO/IEC 7816-4; not PKCS#7).

    Answers: BITS (more than the data has, or than 524,287).
    """
    pointer, length = _lent(data, "data")
    count = 8 * length if bits is None else _word(bits, "bits")
    out = _output(count // (8 * BLOCK) * (8 * BLOCK) + 8 * BLOCK)
    padded: _Length = _library.conguraha1_pad(pointer, length, count, *_room(out))
    _accept(padded.number)
    return bytes(out)


def unpad(data: BytesLike, bits: Optional[int] = None) -> int:
    """How many bits stand before the padding.

    The padded text is the first `bits` bits of the data, or all of it. The last block alone is
    looked at; one of zero bytes counts as padding whole.

    Answers: BITS, PART_UNIT (not one or more whole blocks).
    """
    pointer, length = _lent(data, "data")
    count = 8 * length if bits is None else _word(bits, "bits")
    unpadded: _Length = _library.conguraha1_unpad(pointer, length, count)
    _accept(unpadded.number)
    return unpadded.bits


# ---- whole CBC messages with ciphertext stealing


def cts_encrypt(key: BytesLike, iv: BytesLike, data: BytesLike) -> bytes:
    """A whole message in CBC with ciphertext stealing (RFC 2040; also CBC-CTS, CS3).

    It has 17 to 65,536 bytes, and what it becomes has as many.

    Answers: KEY_LENGTH, IV_LENGTH, BITS (more than MAX_BYTES), MESSAGE_LENGTH.
    """
    return _stolen(_library.conguraha1_cts_encrypt, key, iv, data)


def cts_decrypt(key: BytesLike, iv: BytesLike, data: BytesLike) -> bytes:
    """The text of a message that `cts_encrypt` gave. It answers as that does."""
    return _stolen(_library.conguraha1_cts_decrypt, key, iv, data)


def _stolen(export: Any, key: BytesLike, iv: BytesLike, data: BytesLike) -> bytes:
    pointer, length = _lent(data, "data")
    out = _output(8 * length)
    lent = (*_lent(key, "key"), *_lent(iv, "iv"), pointer, length)
    _accept(export(*lent, 8 * length, *_room(out)))
    return bytes(out)


# ---- one block of a CBC ciphertext, counted from 0


def cbc_neighbour(iv: BytesLike, ciphertext: BytesLike, j: int) -> bytes:
    """What stands before block j: the IV for j = 0, else block j - 1.

    Answers: IV_LENGTH, NO_BLOCK.
    """
    rows = _row(iv, "iv"), _row(ciphertext, "ciphertext")
    found: _Neighbour = _library.conguraha1_cbc_neighbour(
        *_lent(rows[0], "iv"), *_lent(rows[1], "ciphertext"), _word(j, "j")
    )
    _accept(found.number)
    part = slice(found.offset, found.offset + found.length)
    return memoryview(rows[found.source])[part].tobytes()


def cbc_block(key: BytesLike, iv: BytesLike, ciphertext: BytesLike, j: int) -> bytes:
    """Block j, decrypted with its neighbour.

    Answers: KEY_LENGTH, IV_LENGTH, NO_BLOCK.
    """
    out = bytearray(BLOCK)
    _accept(
        _library.conguraha1_cbc_block(
            *_lent(key, "key"),
            *_lent(iv, "iv"),
            *_lent(ciphertext, "ciphertext"),
            _word(j, "j"),
            *_room(out),
        )
    )
    return bytes(out)


# ---- AES itself: one block under a key, and the key's round keys


class RoundKeys(NamedTuple):
    """The rounds, and the 240 bytes of the round keys, 0 after those in use."""

    rounds: int
    keys: bytes

    def __repr__(self) -> str:
        return f"<RoundKeys of {self.rounds} rounds>"


def encrypt_block(key: BytesLike, block: BytesLike) -> bytes:
    """One block under the key. A block that is not 16 bytes long is a ValueError.

    Answers: KEY_LENGTH.
    """
    return _one_block(_library.conguraha1_aes_encrypt, key, block)


def decrypt_block(key: BytesLike, block: BytesLike) -> bytes:
    """The block that `encrypt_block` made this one of. It answers as that does."""
    return _one_block(_library.conguraha1_aes_decrypt, key, block)


def _one_block(export: Any, key: BytesLike, block: BytesLike) -> bytes:
    out = bytearray(BLOCK)
    _accept(export(*_lent(key, "key"), _lent_block(block, "block"), _written(out)))
    return bytes(out)


def expand_key(key: BytesLike) -> RoundKeys:
    """The rounds and the round keys of a key.

    Answers: KEY_LENGTH.
    """
    rounds = ctypes.c_size_t()
    keys = bytearray(KEYS)
    _accept(
        _library.conguraha1_aes_expand(*_lent(key, "key"), ctypes.byref(rounds), _written(keys))
    )
    return RoundKeys(rounds.value, bytes(keys))
