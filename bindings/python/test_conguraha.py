"""Tests of the module conguraha. The project's lists are run by test_lists.py.

CONGURAHA_LIBRARY=.../libconguraha.so.1 python3 -m unittest discover -s bindings/python
"""

from __future__ import annotations

import array
import copy
import ctypes
import doctest
import os
import pathlib
import pickle
import random
import shutil
import subprocess
import sys
import tempfile
import threading
import unittest
from typing import Any, Callable, Dict, Iterator, List, Tuple

import conguraha
from conguraha import (
    Answer,
    Direction,
    Mode,
    Refused,
    Session,
    cbc_block,
    cbc_neighbour,
    counter_place,
    cts_decrypt,
    cts_encrypt,
    decrypt_block,
    encrypt_block,
    expand_key,
    forecast,
    pad,
    unpad,
)

unhex = bytes.fromhex

KEY = unhex("2b7e151628aed2a6abf7158809cf4f3c")
KEY_192 = unhex("8e73b0f7da0e6452c810f32b809079e562f8ead2522c6b7b")
KEY_256 = unhex("603deb1015ca71be2b73aef0857d77811f352c073b6108d72d9810a30914dff4")
IV = unhex("000102030405060708090a0b0c0d0e0f")
COUNTER = unhex("f0f1f2f3f4f5f6f7f8f9fafbfcfdfeff")
TEXT = unhex(
    "6bc1bee22e409f96e93d7e117393172aae2d8a571e03ac9c9eb76fac45af8e51"
    "30c81c46a35ce411e5fbc1191a0a52eff69f2445df4f9b17ad2b417be66c3710"
)

# Each mode with some n, and an IV for it.
SETTINGS = [
    (Mode.ECB, 128, b""),
    (Mode.CBC, 128, IV),
    (Mode.CFB, 1, IV),
    (Mode.CFB, 3, IV),
    (Mode.CFB, 8, IV),
    (Mode.CFB, 13, IV),
    (Mode.CFB, 64, IV),
    (Mode.CFB, 127, IV),
    (Mode.CFB, 128, IV),
    (Mode.OFB, 128, IV),
    (Mode.CTR, 128, COUNTER),
]


def opened(
    mode: Mode = Mode.CFB, direction: Direction = Direction.ENCRYPT, n: int = 128, m: int = 128
) -> Session:
    return Session.open(mode, direction, KEY, b"" if mode == Mode.ECB else IV, n, m)


def held(session: Session) -> bytes:
    """Every byte of a session's struct."""
    return bytes(session._held)


def with_units(session: Session, units: int) -> Session:
    """The session as if it had processed that many units: a test's means."""
    session._held.units = units
    return session


def bits_of(data: bytes, count: int) -> str:
    return "".join(f"{byte:08b}" for byte in data)[:count]


def packed(bits: str) -> bytes:
    padded = bits + "0" * (-len(bits) % 8)
    return bytes(int(padded[i : i + 8], 2) for i in range(0, len(padded), 8))


class Test(unittest.TestCase):
    def refused(self, answer: Answer, call: Callable[..., object], *words: Any) -> None:
        with self.assertRaises(Refused) as caught:
            call(*words)
        self.assertIs(caught.exception.answer, answer)


# ---- published vectors

# SP 800-38A, appendix F: mode, n, and the ciphertexts under keys of 16, 24 and 32 bytes.
SP_800_38A: List[Tuple[Mode, int, Tuple[str, str, str]]] = [
    (
        Mode.ECB,
        128,
        (
            "3ad77bb40d7a3660a89ecaf32466ef97f5d3d58503b9699de785895a96fdbaaf"
            "43b1cd7f598ece23881b00e3ed0306887b0c785e27e8ad3f8223207104725dd4",
            "bd334f1d6e45f25ff712a214571fa5cc974104846d0ad3ad7734ecb3ecee4eef"
            "ef7afd2270e2e60adce0ba2face6444e9a4b41ba738d6c72fb16691603c18e0e",
            "f3eed1bdb5d2a03c064b5a7e3db181f8591ccb10d410ed26dc5ba74a31362870"
            "b6ed21b99ca6f4f9f153e7b1beafed1d23304b7a39f9f3ff067d8d8f9e24ecc7",
        ),
    ),
    (
        Mode.CBC,
        128,
        (
            "7649abac8119b246cee98e9b12e9197d5086cb9b507219ee95db113a917678b2"
            "73bed6b8e3c1743b7116e69e222295163ff1caa1681fac09120eca307586e1a7",
            "4f021db243bc633d7178183a9fa071e8b4d9ada9ad7dedf4e5e738763f69145a"
            "571b242012fb7ae07fa9baac3df102e008b0e27988598881d920a9e64f5615cd",
            "f58c4c04d6e5f1ba779eabfb5f7bfbd69cfc4e967edb808d679f777bc6702c7d"
            "39f23369a9d9bacfa530e26304231461b2eb05e2c39be9fcda6c19078c6a9d1b",
        ),
    ),
    (Mode.CFB, 1, ("68b3", "9359", "9029")),
    (
        Mode.CFB,
        8,
        (
            "3b79424c9c0dd436bace9e0ed4586a4f32b9",
            "cda2521ef0a905ca44cd057cbf0d47a0678a",
            "dc1f1a8520a64db55fcc8ac554844e889700",
        ),
    ),
    (
        Mode.CFB,
        128,
        (
            "3b3fd92eb72dad20333449f8e83cfb4ac8a64537a0b3a93fcde3cdad9f1ce58b"
            "26751f67a3cbb140b1808cf187a4f4dfc04b05357c5d1c0eeac4c66f9ff7f2e6",
            "cdc80d6fddf18cab34c25909c99a417467ce7f7f81173621961a2b70171d3d7a"
            "2e1e8a1dd59b88b1c8e60fed1efac4c9c05f9f9ca9834fa042ae8fba584b09ff",
            "dc7e84bfda79164b7ecd8486985d386039ffed143b28b1c832113c6331e5407b"
            "df10132415e54b92a13ed0a8267ae2f975a385741ab9cef82031623d55b1e471",
        ),
    ),
    (
        Mode.OFB,
        128,
        (
            "3b3fd92eb72dad20333449f8e83cfb4a7789508d16918f03f53c52dac54ed825"
            "9740051e9c5fecf64344f7a82260edcc304c6528f659c77866a510d9c1d6ae5e",
            "cdc80d6fddf18cab34c25909c99a4174fcc28b8d4c63837c09e81700c1100401"
            "8d9a9aeac0f6596f559c6d4daf59a5f26d9f200857ca6c3e9cac524bd9acc92a",
            "dc7e84bfda79164b7ecd8486985d38604febdc6740d20b3ac88f6ad82a4fb08d"
            "71ab47a086e86eedf39d1c5bba97c4080126141d67f37be8538f5a8be740e484",
        ),
    ),
    (
        Mode.CTR,
        128,
        (
            "874d6191b620e3261bef6864990db6ce9806f66b7970fdff8617187bb9fffdff"
            "5ae4df3edbd5d35e5b4f09020db03eab1e031dda2fbe03d1792170a0f3009cee",
            "1abc932417521ca24f2b0459fe7e6e0b090339ec0aa6faefd5ccc2c6f4ce8e94"
            "1e36b26bd1ebc670d1bd1d665620abf74f78a7f6d29809585a97daec58c6b050",
            "601ec313775789a5b7a7f504bbf3d228f443e3ca4d62b59aca84e990cacaf5c5"
            "2b0930daa23de94ce87017ba2d84988ddfc9c58db67aada613c2dd08457941a6",
        ),
    ),
]

# FIPS 197, appendices B and C: key, block, and what it becomes.
FIPS_197 = [
    (KEY, "3243f6a8885a308d313198a2e0370734", "3925841d02dc09fbdc118597196a0b32"),
    (bytes(range(16)), "00112233445566778899aabbccddeeff", "69c4e0d86a7b0430d8cdb78070b4c55a"),
    (bytes(range(24)), "00112233445566778899aabbccddeeff", "dda97ca4864cdfe06eaf70a0ec0d7191"),
    (bytes(range(32)), "00112233445566778899aabbccddeeff", "8ea2b7ca516745bfeafc49904b496089"),
]

# RFC 3686, test vectors 1 to 3: key, first counter block, text, ciphertext.
RFC_3686 = [
    (
        "ae6852f8121067cc4bf7a5765577f39e",
        "00000030000000000000000000000001",
        "53696e676c6520626c6f636b206d7367",
        "e4095d4fb7a7b3792d6175a3261311b8",
    ),
    (
        "7e24067817fae0d743d6ce1f32539163",
        "006cb6dbc0543b59da48d90b00000001",
        "000102030405060708090a0b0c0d0e0f101112131415161718191a1b1c1d1e1f",
        "5104a106168a72d9790d41ee8edad388eb2e1efc46da57c8fce630df9141be28",
    ),
    (
        "7691be035e5020a8ac6e618529f9a0dc",
        "00e0017b27777f3f4a1786f000000001",
        "000102030405060708090a0b0c0d0e0f101112131415161718191a1b1c1d1e1f20212223",
        "c1cf48a89f2ffdd9cf4652e9efdb72d74540a42bde6d7836d59a5ceaaef3105325b2072f",
    ),
]

# RFC 3962, appendix B, under one key and an IV of 0.
RFC_3962_KEY = b"chicken teriyaki"
RFC_3962_TEXT = b"I would like the General Gau's Chicken, please, and wonton soup."
RFC_3962 = [
    "c6353568f2bf8cb4d8a580362da7ff7f97",
    "fc00783e0efdb2c1d445d4c8eff7ed2297687268d6ecccc0c07b25e25ecfe5",
    "39312523a78662d5be7fcbcc98ebf5a897687268d6ecccc0c07b25e25ecfe584",
    "97687268d6ecccc0c07b25e25ecfe584b3fffd940c16a18c1b5549d2f838029e"
    "39312523a78662d5be7fcbcc98ebf5",
    "97687268d6ecccc0c07b25e25ecfe5849dad8bbb96c4cdc03bc103e1a194bbd8"
    "39312523a78662d5be7fcbcc98ebf5a8",
    "97687268d6ecccc0c07b25e25ecfe58439312523a78662d5be7fcbcc98ebf5a8"
    "4807efe836ee89a526730dbc2f7bc8409dad8bbb96c4cdc03bc103e1a194bbd8",
]


class VectorTest(Test):
    def test_modes(self) -> None:
        for mode, n, ciphertexts in SP_800_38A:
            iv = {Mode.ECB: b"", Mode.CTR: COUNTER}.get(mode, IV)
            for key, ciphertext in zip((KEY, KEY_192, KEY_256), map(unhex, ciphertexts)):
                text = TEXT[: len(ciphertext)]
                with self.subTest(mode=mode.name, n=n, key=8 * len(key)):
                    sender = Session.open(mode, Direction.ENCRYPT, key, iv, n)
                    self.assertEqual(sender.feed(text), ciphertext)
                    receiver = Session.open(mode, Direction.DECRYPT, key, iv, n)
                    self.assertEqual(receiver.feed(ciphertext), text)
                    self.assertEqual(receiver.rounds, 6 + len(key) // 4)
                    self.assertEqual(receiver.units, 8 * len(text) // n)

    def test_counter_of_32_bits(self) -> None:
        for row in RFC_3686:
            key, iv, text, ciphertext = map(unhex, row)
            session = Session.open(Mode.CTR, Direction.ENCRYPT, key, iv, m=32)
            self.assertEqual(session.feed(text), ciphertext)
            self.assertEqual(session.closed, len(text) % 16 != 0)

    def test_one_block(self) -> None:
        for key, text, ciphertext in FIPS_197:
            self.assertEqual(encrypt_block(key, unhex(text)).hex(), ciphertext)
            self.assertEqual(decrypt_block(key, unhex(ciphertext)).hex(), text)

    def test_round_keys(self) -> None:
        expanded = expand_key(KEY)
        self.assertEqual(expanded.rounds, 10)
        self.assertEqual(expanded.keys[:16], KEY)
        # FIPS 197, appendix A.1: the last round key
        self.assertEqual(expanded.keys[160:176].hex(), "d014f9a8c9ee2589e13f0cc8b6630ca6")
        self.assertEqual(expanded.keys[176:], bytes(64))
        self.assertEqual(expand_key(KEY_256).rounds, 14)
        self.assertEqual(repr(expanded), "<RoundKeys of 10 rounds>")

    def test_stealing(self) -> None:
        for ciphertext in map(unhex, RFC_3962):
            text = RFC_3962_TEXT[: len(ciphertext)]
            self.assertEqual(cts_encrypt(RFC_3962_KEY, bytes(16), text), ciphertext)
            self.assertEqual(cts_decrypt(RFC_3962_KEY, bytes(16), ciphertext), text)

    def test_one_block_of_cbc(self) -> None:
        ciphertext = unhex(SP_800_38A[1][2][0])
        for j in range(4):
            before = (IV + ciphertext)[16 * j : 16 * j + 16]
            self.assertEqual(cbc_neighbour(IV, ciphertext, j), before)
            plain = TEXT[16 * j : 16 * j + 16]
            self.assertEqual(cbc_block(KEY, IV, ciphertext, j), plain)


# ---- answers


def room_refused() -> None:
    """The export itself: a call of the module makes the room that it needs."""
    out = bytearray(15)
    pointer = ctypes.byref(ctypes.c_char.from_buffer(out))
    fed = conguraha._library.conguraha1_feed(opened()._held, TEXT, 16, 128, pointer, 15, 0)
    conguraha._accept(fed.number)


def closed_session() -> Session:
    session = opened(Mode.OFB)
    session.feed(b"a")
    return session


def wiped_session() -> Session:
    session = opened()
    session.wipe()
    return session


# A call for each answer that can be reached.
CALLS: Dict[Answer, Callable[[], object]] = {
    Answer.OK: lambda: opened().feed(TEXT),
    Answer.KEY_LENGTH: lambda: Session.open(Mode.CBC, Direction.ENCRYPT, KEY[1:], IV),
    Answer.IV_LENGTH: lambda: Session.open(Mode.ECB, Direction.ENCRYPT, KEY, IV),
    Answer.UNIT_LENGTH: lambda: opened(Mode.CFB, n=129),
    Answer.NOT_OPENED: lambda: wiped_session().feed(b""),
    Answer.CLOSED: lambda: closed_session().feed(b""),
    Answer.BITS: lambda: opened().feed_bits(b"a", 9),
    Answer.PART_UNIT: lambda: opened().feed(b"a"),
    Answer.ROOM: room_refused,
    Answer.UNIT_LIMIT: lambda: with_units(opened(), 2**64 - 1).feed(TEXT[:16]),
    Answer.NO_BLOCK: lambda: cbc_neighbour(IV, TEXT, 4),
    Answer.MESSAGE_LENGTH: lambda: cts_encrypt(KEY, IV, TEXT[:16]),
    Answer.COUNTER_LENGTH: lambda: opened(Mode.CTR, m=0),
    Answer.COUNTER_LIMIT: lambda: opened(Mode.CTR, m=1).feed(TEXT),
    Answer.OTHER_MESSAGE: lambda: counter_place(IV, COUNTER, 8),
    Answer.NO_MODE: lambda: Session.open(5, Direction.ENCRYPT, b"", b"", 0, 0),
}

# The program modeline's; and that of C's header, for outputs that this module makes itself.
NEVER = {Answer.NOT_FORMED, Answer.OVERLAP}


class AnswerTest(Test):
    def test_each(self) -> None:
        for answer, call in CALLS.items():
            with self.subTest(answer.name):
                if answer == Answer.OK:
                    call()
                else:
                    self.refused(answer, call)
        self.assertEqual(set(CALLS), set(Answer) - NEVER)

    def test_key_length_of_each_call(self) -> None:
        for length in (0, 15, 17, 20, 31, 33):
            key = bytes(length)
            self.refused(Answer.KEY_LENGTH, cts_encrypt, key, IV, TEXT)
            self.refused(Answer.KEY_LENGTH, cts_decrypt, key, IV, TEXT)
            self.refused(Answer.KEY_LENGTH, cbc_block, key, IV, TEXT, 0)
            self.refused(Answer.KEY_LENGTH, encrypt_block, key, IV)
            self.refused(Answer.KEY_LENGTH, decrypt_block, key, IV)
            self.refused(Answer.KEY_LENGTH, expand_key, key)

    def test_the_first_no_answers(self) -> None:
        call = Session.open
        self.refused(Answer.NO_MODE, call, 64, Direction.ENCRYPT, b"", b"", 0, 0)
        self.refused(Answer.KEY_LENGTH, call, Mode.CTR, Direction.ENCRYPT, b"", b"", 0, 0)
        self.refused(Answer.IV_LENGTH, call, Mode.CTR, Direction.ENCRYPT, KEY, b"", 0, 0)
        self.refused(Answer.UNIT_LENGTH, call, Mode.CTR, Direction.ENCRYPT, KEY, IV, 0, 0)
        self.refused(Answer.COUNTER_LENGTH, call, Mode.CTR, Direction.ENCRYPT, KEY, IV, 128, 0)
        self.refused(Answer.COUNTER_LENGTH, call, Mode.CBC, Direction.ENCRYPT, KEY, IV, 128, 64)

    def test_refused_carries_its_answer(self) -> None:
        refused = Refused(Answer.CLOSED)
        self.assertEqual(str(refused), Answer.CLOSED.text)
        self.assertIs(pickle.loads(pickle.dumps(refused)).answer, Answer.CLOSED)
        self.assertIsInstance(refused, Exception)

    def test_a_number_that_is_no_answer_is_a_refusal(self) -> None:
        for number in (10, 17, 63, 66, 2**64 - 1):
            with self.assertRaises(Refused) as caught:
                conguraha._accept(number)
            self.assertEqual(caught.exception.answer, number)
            self.assertIn(str(number), str(caught.exception))

    def test_each_answer_has_a_sentence(self) -> None:
        sentences = [answer.text for answer in Answer]
        self.assertEqual(len(set(sentences)), len(Answer))
        self.assertEqual(Answer(6).text, Answer.BITS.text)


# ---- feeds


def some_cuts(rng: random.Random, units: int) -> Iterator[Tuple[int, int]]:
    """The text's units from first to last, in parts of any length, 0 among them."""
    at = 0
    while at < units:
        end = min(units, at + rng.choice((0, 1, 1, 2, 3, 7, 20)))
        yield at, end
        at = end


class FeedTest(Test):
    def test_cut_anywhere(self) -> None:
        rng = random.Random(1)
        for mode, n, iv in SETTINGS:
            for direction in Direction:
                units = rng.randrange(30, 60)
                text = "".join(rng.choice("01") for _ in range(units * n))
                whole = Session.open(mode, direction, KEY, iv, n)
                expected = bits_of(whole.feed_bits(packed(text), len(text)), len(text))
                for _ in range(5):
                    self.cut(rng, Session.open(mode, direction, KEY, iv, n), text, expected)

    def cut(self, rng: random.Random, session: Session, text: str, expected: str) -> None:
        """Feeds in parts give what the whole text gives, and end in the same state."""
        came, runs, n = "", 0, session.n
        for first, last in some_cuts(rng, len(text) // n):
            part = text[first * n : last * n]
            given = session.feed_bits(packed(part), len(part))
            self.assertEqual(len(given), (len(part) + 7) // 8)
            came += bits_of(given, len(part))
            runs += session.runs
        self.assertEqual(came, expected, session)
        self.assertEqual(runs, len(text) // n)
        self.assertEqual(session.units, runs)

    def test_cut_at_bytes(self) -> None:
        for mode, iv in ((Mode.CFB, IV), (Mode.OFB, IV), (Mode.CTR, COUNTER)):
            n = 8 if mode == Mode.CFB else 128
            whole = Session.open(mode, Direction.ENCRYPT, KEY, iv, n).feed(TEXT[:50])
            for cut in range(0, 50, n // 8):
                session = Session.open(mode, Direction.ENCRYPT, KEY, iv, n)
                self.assertEqual(session.feed(TEXT[:cut]) + session.feed(TEXT[cut:50]), whole)

    def test_both_directions_undo_each_other(self) -> None:
        rng = random.Random(2)
        for mode, n, iv in SETTINGS:
            text = bytes(rng.randrange(256) for _ in range(2 * n))
            sender = Session.open(mode, Direction.ENCRYPT, KEY_192, iv, n)
            receiver = Session.open(mode, Direction.DECRYPT, KEY_192, iv, n)
            self.assertEqual(receiver.feed(sender.feed(text)), text)
            self.assertEqual(receiver.register, sender.register)

    def test_lost_segment_of_8_bits(self) -> None:
        rng = random.Random(3)
        last_wrong = set()
        for lost in range(0, 40, 3):
            text = bytes(rng.randrange(256) for _ in range(120))
            ciphertext = opened(n=8).feed(text)
            received = ciphertext[:lost] + ciphertext[lost + 1 :]
            for _ in range(3):
                came = self.received(rng, received)
                self.assertEqual(came[:lost], text[:lost])
                self.assertEqual(came[lost + 16 :], text[lost + 17 :])
            wrong = [i for i in range(16) if came[lost + i] != text[lost + 1 + i]]
            last_wrong.add(wrong[-1])
        # of the 16 segments that may be wrong the last one is, most often
        self.assertIn(15, last_wrong)

    def received(self, rng: random.Random, ciphertext: bytes) -> bytes:
        """The text that comes out of reads that end anywhere."""
        session = opened(Mode.CFB, Direction.DECRYPT, 8)
        reads = some_cuts(rng, len(ciphertext))
        return b"".join(session.feed(ciphertext[first:last]) for first, last in reads)

    def test_refused_feeds_change_nothing(self) -> None:
        for session, data, bits, answer in (
            (opened(Mode.CBC), TEXT, 129, Answer.PART_UNIT),
            (opened(Mode.CFB, n=3), TEXT, 4, Answer.PART_UNIT),
            (opened(Mode.OFB), TEXT, 513, Answer.BITS),
            (opened(Mode.ECB), bytes(65552), 524416, Answer.BITS),
            (opened(Mode.CTR, m=2), bytes(80), 640, Answer.COUNTER_LIMIT),
            (with_units(opened(), 2**64 - 2), TEXT, 256, Answer.UNIT_LIMIT),
        ):
            other = session.copy()
            before = held(session)
            self.refused(answer, session.feed_bits, data, bits)
            self.assertEqual(held(session), before)
            self.assertEqual(session.runs, 0)
            self.assertEqual(session.feed(TEXT[:0]), b"")
            unit = (TEXT, 3) if session.n == 3 else (TEXT, 128)
            self.assertEqual(session.feed_bits(*unit), other.feed_bits(*unit))
            self.assertEqual(held(session), held(other))

    def test_refused_for_ever(self) -> None:
        for session, answer in (
            (closed_session(), Answer.CLOSED),
            (wiped_session(), Answer.NOT_OPENED),
        ):
            before = held(session)
            for data in (b"", b"a", TEXT, bytes(65537)):
                self.refused(answer, session.feed, data)
                self.assertEqual(held(session), before)

    def test_largest(self) -> None:
        text = bytes(range(256)) * 256
        for mode, n, iv in SETTINGS:
            if 8 * len(text) % n != 0:
                continue
            sender = Session.open(mode, Direction.ENCRYPT, KEY, iv, n)
            self.refused(Answer.BITS, sender.feed, text + b"a")
            self.refused(Answer.BITS, sender.feed, bytes(10**6))
            sent = sender.feed(text)
            self.assertEqual(sender.runs, 8 * len(text) // n)
            receiver = Session.open(mode, Direction.DECRYPT, KEY, iv, n)
            halves = receiver.feed(sent[:32768]), receiver.feed(sent[32768:])
            self.assertEqual(b"".join(halves), text)

    def test_bits(self) -> None:
        session = opened(Mode.CFB, n=1)
        self.assertEqual(session.feed_bits(unhex("6bc1"), 4), unhex("60"))
        self.assertEqual(session.feed_bits(unhex("bc10"), 12), unhex("8b30"))
        self.assertEqual((session.runs, session.units), (12, 16))
        # the bits of the input after those that are fed do not matter
        again = opened(Mode.CFB, n=1)
        self.assertEqual(again.feed_bits(unhex("6fffff"), 4), unhex("60"))

    def test_closing(self) -> None:
        for mode in (Mode.OFB, Mode.CTR):
            session = opened(mode)
            session.feed(TEXT[:32])
            self.assertFalse(session.closed)
            self.assertEqual(len(session.feed(TEXT[32:49])), 17)
            self.assertEqual((session.closed, session.runs, session.units), (True, 2, 4))

    def test_units_past_32_bits(self) -> None:
        session = with_units(opened(), 2**64 - 3)
        session.feed(TEXT[:32])
        self.assertEqual(session.units, 2**64 - 1)
        self.assertEqual(session.feed(b""), b"")
        self.refused(Answer.UNIT_LIMIT, session.feed, TEXT[:16])

    def test_threads(self) -> None:
        """Each with a session of its own."""
        text = bytes(65536)
        expected = [opened(mode).feed(text) for mode in Mode]
        came: Dict[int, List[bytes]] = {}

        def work(number: int) -> None:
            came[number] = [opened(mode).feed(text) for mode in Mode]

        threads = [threading.Thread(target=work, args=(number,)) for number in range(6)]
        for thread in threads:
            thread.start()
        for thread in threads:
            thread.join()
        self.assertEqual(came, {number: expected for number in range(6)})


# ---- sessions


class SessionTest(Test):
    def test_properties(self) -> None:
        session = Session.open(Mode.CTR, Direction.DECRYPT, KEY_192, IV, m=32)
        self.assertIs(session.mode, Mode.CTR)
        self.assertIs(session.direction, Direction.DECRYPT)
        self.assertEqual((session.n, session.m, session.rounds), (128, 32, 12))
        self.assertEqual((session.register, session.units, session.runs), (IV, 0, 0))
        self.assertIs(session.closed, False)
        session.feed(TEXT[:20])
        self.assertEqual(session.register, IV[:15] + b"\x11")
        self.assertEqual((session.units, session.runs), (2, 2))
        self.assertIs(session.closed, True)
        with self.assertRaises(AttributeError):
            session.units = 0  # type: ignore[misc]

    def test_copy(self) -> None:
        copies: List[Callable[[Session], Session]] = [Session.copy, copy.copy, copy.deepcopy]
        for copied in copies:
            session = opened(n=8)
            session.feed(b"abc")
            other = copied(session)
            before = held(session)
            ahead = other.feed(TEXT)
            self.assertEqual(held(session), before)
            self.assertEqual(session.feed(TEXT), ahead)
            self.assertEqual(held(session), held(other))

    def test_alike(self) -> None:
        session, other = opened(n=8), opened(n=8)
        self.assertTrue(session.alike(other))
        other.feed(b"a")
        self.assertFalse(session.alike(other))
        session.feed(b"a")
        self.assertTrue(session.alike(other))
        self.assertTrue(session.alike(with_units(other, 77)))
        self.assertFalse(session.alike(opened(Mode.OFB)))
        self.assertRaises(TypeError, session.alike, session._held)

    def test_any_flag_but_0_is_yes(self) -> None:
        receiver = opened(Mode.CBC, Direction.DECRYPT)
        other = receiver.copy()
        other._held.decrypting = 2
        self.assertIs(other.direction, Direction.DECRYPT)
        self.assertTrue(receiver.alike(other))
        self.assertEqual(receiver.feed(TEXT), other.feed(TEXT))
        self.assertEqual(other._held.decrypting, 2)
        other._held.decrypting = 1
        self.assertEqual(held(receiver), held(other))
        other._held.closed = 77
        self.assertIs(other.closed, True)
        self.refused(Answer.CLOSED, other.feed, TEXT)

    def test_wipe(self) -> None:
        session = opened()
        session.feed(TEXT)
        session.wipe()
        self.assertEqual(held(session), bytes(304))
        self.assertEqual(session.runs, 0)
        self.refused(Answer.NOT_OPENED, session.feed, TEXT)
        session.wipe()

    def test_with_wipes(self) -> None:
        with opened() as session:
            session.feed(TEXT)
        self.assertEqual(held(session), bytes(304))
        with self.assertRaises(Refused):
            with opened() as session:
                session.feed(b"a")
        self.assertEqual(held(session), bytes(304))

    def test_shows_no_key(self) -> None:
        session = opened(Mode.OFB)
        session.feed(TEXT[:16])
        shown = "<Session OFB ENCRYPT n=128 m=128 rounds=10 units=1 closed=False>"
        for came in (repr(session), str(session), f"{session}"):
            self.assertEqual(came, shown)
        self.assertFalse(hasattr(session, "__dict__"))

    def test_is_not_pickled(self) -> None:
        for protocol in range(pickle.HIGHEST_PROTOCOL + 1):
            self.assertRaises(TypeError, pickle.dumps, opened(), protocol)

    def carried(self, **words: Any) -> Session:
        rounds, keys = expand_key(KEY)
        older: Dict[str, Any] = {
            "mode": Mode.CFB,
            "direction": Direction.ENCRYPT,
            "n": 8,
            "m": 128,
            "rounds": rounds,
            "keys": keys,
            "register": IV,
            "units": 0,
            "closed": False,
        }
        return Session.carry(**{**older, **words})

    def test_carry(self) -> None:
        self.assertEqual(held(self.carried()), held(opened(n=8)))
        session = self.carried(units=2**32 - 1)
        self.assertEqual(session.feed(unhex("6bc1")), unhex("3b79"))
        self.assertEqual(session.units, 2**32 + 1)
        self.refused(Answer.CLOSED, self.carried(closed=True).feed, b"")
        receiver = self.carried(direction=Direction.DECRYPT, register=bytearray(IV))
        self.assertEqual(receiver.feed(unhex("3b79")), unhex("6bc1"))

    def test_carry_to_the_end_of_a_counter(self) -> None:
        session = self.carried(mode=Mode.CTR, n=128, m=32, units=2**32 - 1)
        session.feed(TEXT[:16])
        self.refused(Answer.COUNTER_LIMIT, session.feed, TEXT[:16])

    def test_carry_refuses_nothing(self) -> None:
        session = self.carried(mode=7)
        self.refused(Answer.NO_MODE, session.feed, b"")
        self.assertIn("of no mode", repr(session))
        self.assertFalse(session.alike(session))
        with self.assertRaises(ValueError):
            session.mode
        for name, number in (("n", 0), ("m", 5), ("rounds", 11), ("rounds", 2**64 - 1)):
            self.refused(Answer.NOT_OPENED, self.carried(**{name: number}).feed, b"")

    def test_carry_of_other_forms(self) -> None:
        others: List[Tuple[str, Any]] = [
            ("units", 2**32),
            ("units", -1),
            ("keys", bytes(176)),
            ("keys", bytes(241)),
            ("register", b""),
            ("direction", 2),
        ]
        for name, word in others:
            self.assertRaises(ValueError, self.carried, **{name: word})
        self.assertRaises(TypeError, self.carried, keys="k" * 240)


# ---- the other calls


class CallTest(Test):
    def test_forecast(self) -> None:
        self.assertEqual(forecast(Mode.CFB, 3, 9), (2, 3))
        self.assertEqual(forecast(Mode.CFB, 3, 9).bytes, 2)
        self.assertEqual(forecast(Mode.CTR, 128, 524281).runs, 4096)
        self.refused(Answer.NO_MODE, forecast, 5, 128, 0)
        self.refused(Answer.UNIT_LENGTH, forecast, Mode.OFB, 8, 0)
        self.refused(Answer.BITS, forecast, Mode.OFB, 128, 524289)
        self.refused(Answer.PART_UNIT, forecast, Mode.CBC, 128, 8)

    def test_forecast_is_what_a_feed_costs(self) -> None:
        for mode, n, iv in SETTINGS:
            for units in (0, 1, 2, 40):
                session = Session.open(mode, Direction.ENCRYPT, KEY, iv, n)
                given = session.feed_bits(bytes(640), units * n)
                cost = forecast(mode, n, units * n)
                self.assertEqual((len(given), session.runs), cost)

    def test_counter_place(self) -> None:
        for m in (4, 8, 32, 64, 128):
            session = Session.open(Mode.CTR, Direction.ENCRYPT, KEY, COUNTER, m=m)
            for unit in range(10):
                self.assertEqual(counter_place(COUNTER, session.register, m), unit)
                session.feed(bytes(16))
        self.assertEqual(counter_place(bytes(16), b"\xff" * 16, 128), 2**128 - 1)
        self.assertEqual(counter_place(IV, IV, 1), 0)
        self.refused(Answer.COUNTER_LENGTH, counter_place, IV, IV, 0)
        self.refused(Answer.COUNTER_LENGTH, counter_place, IV, IV, 129)
        self.refused(Answer.OTHER_MESSAGE, counter_place, IV, COUNTER, 127)

    def test_padding(self) -> None:
        for bits in range(400):
            padded = pad(TEXT, bits)
            self.assertEqual(len(padded), 16 * (bits // 128 + 1))
            shown = bits_of(padded, 8 * len(padded))
            self.assertEqual(shown.rstrip("0"), bits_of(TEXT, bits) + "1")
            self.assertEqual(unpad(padded), bits)
        self.assertEqual(pad(b"abc"), b"abc\x80" + bytes(12))
        self.assertEqual(pad(b""), b"\x80" + bytes(15))
        self.assertEqual(unpad(pad(TEXT) + b"behind", 640), 512)

    def test_padding_at_its_edges(self) -> None:
        self.assertEqual(len(pad(bytes(65536), 524287)), 65536)
        self.refused(Answer.BITS, pad, bytes(65536))
        self.refused(Answer.BITS, pad, b"a", 9)
        self.assertEqual(unpad(bytes(65536)), 524288 - 128)
        self.refused(Answer.BITS, unpad, bytes(65552))
        self.refused(Answer.BITS, unpad, bytes(16), 129)
        self.refused(Answer.PART_UNIT, unpad, b"")
        self.refused(Answer.PART_UNIT, unpad, bytes(17))

    def test_stealing(self) -> None:
        text = bytes(range(256)) * 256
        for length in (17, 31, 32, 33, 100, 65535, 65536):
            sent = cts_encrypt(KEY_256, IV, text[:length])
            self.assertEqual(len(sent), length)
            self.assertEqual(cts_decrypt(KEY_256, IV, sent), text[:length])
        for call in (cts_encrypt, cts_decrypt):
            self.refused(Answer.MESSAGE_LENGTH, call, KEY, IV, text[:16])
            self.refused(Answer.MESSAGE_LENGTH, call, KEY, IV, b"")
            self.refused(Answer.BITS, call, KEY, IV, text + b"a")
            self.refused(Answer.IV_LENGTH, call, KEY, IV[1:], text)

    def test_one_block_of_cbc(self) -> None:
        calls: List[Callable[[bytes, bytes, int], bytes]] = [
            cbc_neighbour,
            lambda iv, ciphertext, j: cbc_block(KEY, iv, ciphertext, j),
        ]
        for call in calls:
            self.refused(Answer.IV_LENGTH, call, b"", TEXT, 0)
            self.refused(Answer.NO_BLOCK, call, IV, TEXT, 4)
            self.refused(Answer.NO_BLOCK, call, IV, TEXT, 2**60 + 1)
            self.refused(Answer.NO_BLOCK, call, IV, TEXT, 2**64 - 1)
            self.refused(Answer.NO_BLOCK, call, IV, TEXT[1:], 0)
            self.refused(Answer.NO_BLOCK, call, IV, b"", 0)

    def test_blocks_of_other_lengths(self) -> None:
        for length in (0, 15, 17):
            self.assertRaises(ValueError, encrypt_block, KEY, bytes(length))
            self.assertRaises(ValueError, decrypt_block, KEY, bytes(length))
            self.assertRaises(ValueError, counter_place, bytes(length), IV, 128)
            self.assertRaises(ValueError, counter_place, IV, bytes(length), 128)


# ---- arguments


class Longer(bytes):
    """Bytes that say that they are more."""

    def __len__(self) -> int:
        return 10**6


class ArgumentTest(Test):
    # A call for each place of data, and one for each of a number.
    DATA: List[Callable[[Any], object]] = [
        lambda data: Session.open(Mode.CBC, Direction.ENCRYPT, data, IV),
        lambda data: Session.open(Mode.CBC, Direction.ENCRYPT, KEY, data),
        lambda data: opened(n=8).feed(data),
        lambda data: opened(n=8).feed_bits(data, 8),
        lambda data: counter_place(data, IV, 128),
        lambda data: counter_place(IV, data, 128),
        lambda data: pad(data),
        lambda data: unpad(data),
        lambda data: cts_encrypt(data, IV, TEXT),
        lambda data: cts_encrypt(KEY, data, TEXT),
        lambda data: cts_encrypt(KEY, IV, data),
        lambda data: cts_decrypt(KEY, IV, data),
        lambda data: cbc_neighbour(data, TEXT, 0),
        lambda data: cbc_neighbour(IV, data, 0),
        lambda data: cbc_block(data, IV, TEXT, 0),
        lambda data: cbc_block(KEY, data, TEXT, 0),
        lambda data: cbc_block(KEY, IV, data, 0),
        lambda data: encrypt_block(data, IV),
        lambda data: encrypt_block(KEY, data),
        lambda data: decrypt_block(data, IV),
        lambda data: decrypt_block(KEY, data),
        lambda data: expand_key(data),
    ]
    NUMBERS: List[Callable[[Any], object]] = [
        lambda number: Session.open(number, Direction.ENCRYPT, KEY, IV),
        lambda number: Session.open(Mode.CFB, number, KEY, IV),
        lambda number: Session.open(Mode.CFB, Direction.ENCRYPT, KEY, IV, n=number),
        lambda number: Session.open(Mode.CTR, Direction.ENCRYPT, KEY, IV, m=number),
        lambda number: opened(n=1).feed_bits(TEXT, number),
        lambda number: forecast(number, 128, 0),
        lambda number: forecast(Mode.CFB, number, 0),
        lambda number: forecast(Mode.CFB, 1, number),
        lambda number: counter_place(IV, IV, number),
        lambda number: pad(TEXT, number),
        lambda number: unpad(TEXT, number),
        lambda number: cbc_neighbour(IV, TEXT, number),
        lambda number: cbc_block(KEY, IV, TEXT, number),
    ]

    def test_other_types(self) -> None:
        others = ("a" * 16, 16, None, 1.5, list(KEY), tuple(KEY), array.array("B", KEY))
        for call in self.DATA:
            for data in (*others, (ctypes.c_char * 16)(), object()):
                self.assertRaises(TypeError, call, data)

    def test_numbers_of_other_types(self) -> None:
        for call in self.NUMBERS:
            for number in ("8", b"8", 1.0, [1], object()):
                self.assertRaises(TypeError, call, number)

    def test_numbers_that_do_not_fit(self) -> None:
        """2^64 + 1 would wrap round to 1, and 2^64 + 128 to 128."""
        for call in self.NUMBERS:
            for number in (-1, -128, -(2**64), 2**64, 2**64 + 1, 2**64 + 128, 2**128, 10**5000):
                self.assertRaises(ValueError, call, number)

    def test_the_largest_numbers_are_refused(self) -> None:
        largest = 2**64 - 1
        self.refused(Answer.NO_MODE, Session.open, largest, Direction.ENCRYPT, KEY, IV)
        self.refused(Answer.UNIT_LENGTH, opened, Mode.CFB, Direction.ENCRYPT, largest)
        self.refused(Answer.COUNTER_LENGTH, opened, Mode.CTR, Direction.ENCRYPT, 128, largest)
        self.refused(Answer.BITS, opened().feed_bits, TEXT, largest)
        self.refused(Answer.BITS, forecast, Mode.CFB, 1, largest)
        self.refused(Answer.BITS, pad, TEXT, largest)
        self.refused(Answer.BITS, unpad, TEXT, largest)
        self.refused(Answer.COUNTER_LENGTH, counter_place, IV, IV, largest)

    def test_directions(self) -> None:
        for number in (2, 255, 256, 257):
            self.assertRaises(ValueError, Session.open, Mode.CFB, number, KEY, IV)

    def test_buffers(self) -> None:
        words = array.array("I", TEXT)
        apart = bytes(byte for pair in zip(TEXT, TEXT) for byte in pair)
        for data in (
            bytearray(TEXT),
            memoryview(TEXT),
            memoryview(bytearray(TEXT)),
            memoryview(b"ab" + TEXT + b"c")[2:-1],
            memoryview(bytearray(b"ab" + TEXT + b"c"))[2:-1],
            memoryview(apart)[::2],
            memoryview(bytearray(apart))[1::2],
            memoryview(bytearray(TEXT[::-1]))[::-1],
            memoryview(words),
            memoryview(words).cast("B", shape=[8, 8]),
            memoryview(words).toreadonly(),
            Longer(TEXT),
        ):
            self.assertEqual(opened().feed(data), opened().feed(TEXT))
            self.assertEqual(pad(data), pad(TEXT))
            self.assertEqual(cbc_block(KEY, IV, data, 3), cbc_block(KEY, IV, TEXT, 3))
            self.assertEqual(cbc_neighbour(IV, data, 3), TEXT[32:48])

    def test_empty_buffers(self) -> None:
        for data in (b"", bytearray(), memoryview(b""), memoryview(bytearray(b"ab"))[2:]):
            self.assertEqual(opened().feed(data), b"")
            self.assertEqual(opened().feed_bits(data, 0), b"")
            self.assertEqual(pad(data), pad(b""))
            Session.open(Mode.ECB, Direction.ENCRYPT, KEY, data)
            self.refused(Answer.BITS, opened().feed_bits, data, 1)

    def test_keys_in_any_buffer(self) -> None:
        session = Session.open(
            Mode.CFB, Direction.ENCRYPT, bytearray(KEY), memoryview(bytearray(IV))
        )
        self.assertTrue(session.alike(opened()))
        self.assertEqual(encrypt_block(memoryview(KEY), bytearray(IV)), encrypt_block(KEY, IV))
        self.assertEqual(counter_place(bytearray(IV), memoryview(IV), 8), 0)

    def test_buffers_are_given_back(self) -> None:
        """A bytearray that is still lent cannot grow."""
        key, iv, data = bytearray(KEY), bytearray(IV), bytearray(TEXT)
        Session.open(Mode.CBC, Direction.ENCRYPT, key, iv).feed(data)
        cts_encrypt(key, iv, data)
        cbc_neighbour(iv, data, 0)
        try:
            opened().feed_bits(data, 513)
        except Refused as refused:
            self.assertIs(refused.answer, Answer.BITS)
            for lent in (key, iv, data):
                lent.append(0)
        self.assertEqual((key[:-1], iv[:-1], data[:-1]), (KEY, IV, TEXT))


# ---- where the library is found

FOLDER = pathlib.Path(conguraha.__file__).resolve().parent
LIBRARY = pathlib.Path(conguraha._library._name)


class LoadingTest(unittest.TestCase):
    def setUp(self) -> None:
        room = tempfile.TemporaryDirectory()
        self.addCleanup(room.cleanup)
        self.room = pathlib.Path(room.name).resolve()

    def loaded(self, code: str, module: pathlib.Path = FOLDER, library: str = "") -> str:
        """What another interpreter says that imports the module: its last line."""
        code = f"import sys; sys.path.insert(0, {str(module)!r}); {code}"
        environment = {**os.environ, "CONGURAHA_LIBRARY": library}
        done = subprocess.run(
            [sys.executable, "-B", "-c", code],
            cwd=self.room,
            env=environment,
            stdout=subprocess.PIPE,
            stderr=subprocess.STDOUT,
            universal_newlines=True,
        )
        return done.stdout.strip().split("\n")[-1]

    def library(self) -> pathlib.Path:
        if not LIBRARY.is_absolute():
            self.skipTest("the loader found the library, which has no known path")
        return LIBRARY

    def test_named(self) -> None:
        shutil.copy(self.library(), self.room / "here.so")
        said = self.loaded(
            "import conguraha; print(conguraha._library._name)", library="here.so"
        )
        self.assertEqual(said, str(self.room / "here.so"))

    def test_named_and_not_there(self) -> None:
        said = self.loaded("import conguraha", library="/nowhere/libconguraha.so.1")
        start = "ImportError: CONGURAHA_LIBRARY names no library that loads: /nowhere/"
        self.assertEqual(said[: len(start)], start)

    def test_another_library(self) -> None:
        path = getattr(sys.modules["_ctypes"], "__file__", None)
        if path is None:
            self.skipTest("this interpreter has no shared library of its own")
        said = self.loaded("import conguraha", library=path)
        end = "is no libconguraha of this form: no conguraha1_open"
        self.assertEqual(said, f"ImportError: {path} {end}")

    def test_installed(self) -> None:
        (self.room / "lib").mkdir()
        shutil.copy(self.library(), self.room / "lib" / conguraha._FILE)
        module = self.room / "share" / "conguraha" / "python"
        module.mkdir(parents=True)
        shutil.copy(FOLDER / "conguraha.py", module)
        said = self.loaded("import conguraha; print(conguraha._library._name)", module)
        self.assertEqual(said, str(self.room / "lib" / conguraha._FILE))

    def test_not_found(self) -> None:
        said = self.loaded(
            "import ctypes, ctypes.util\n"
            "def none(name): raise OSError(name)\n"
            "ctypes.CDLL, ctypes.util.find_library = none, lambda name: None\n"
            "import conguraha"
        )
        expected = (
            "ImportError: libconguraha.so.1 was not found: install the library, or set"
            " CONGURAHA_LIBRARY to the path of that file (libconguraha.so.1)"
        )
        self.assertEqual(said, expected)


class ReadmeTest(unittest.TestCase):
    def test_example(self) -> None:
        results = doctest.testfile(str(FOLDER / "README.md"), module_relative=False)
        self.assertEqual(results.failed, 0)
        self.assertGreater(results.attempted, 5)

    def test_all_that_is_public(self) -> None:
        for name in conguraha.__all__:
            self.assertTrue(hasattr(conguraha, name), name)


if __name__ == "__main__":
    unittest.main()
