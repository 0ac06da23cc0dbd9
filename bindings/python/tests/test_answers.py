"""Every call against the Rust wrapper's answers: PARITY_QUESTIONS names the file that `questions` wrote."""

from __future__ import annotations

import collections
import ctypes
import mmap
import os
import struct
import unittest
from array import array
from typing import Any, Dict, List, Tuple

import parity

CODES = {"u8": "B", "u16": "H", "u32": "I", "u64": "Q", "f32": "f"}
SIZES = {"u8": 1, "u16": 2, "u32": 4, "u64": 8, "f32": 4}
CTYPES = {"u8": ctypes.c_uint8, "u16": ctypes.c_uint16, "u32": ctypes.c_uint32, "u64": ctypes.c_uint64}
QUESTIONS = os.environ.get("PARITY_QUESTIONS", "")


def raw(token: str) -> Tuple[str, str, bytearray]:
    """The name, the type and the bytes of a slice."""
    name, kind, length, places = token.split(":")
    size = SIZES[kind]
    data = bytearray(int(length) * size)
    for entry in places.split(",") if places else ():
        place, value = entry.split("-")
        at = int(place) * size
        data[at : at + size] = int(value, 16).to_bytes(size, "little")
    return name, kind, data


def lent(kind: str, data: bytearray, form: int) -> Any:
    """The bytes in memory of one of several forms that can be written."""
    if form == 0:
        return array(CODES[kind], bytes(data))
    if form == 1:
        return bytearray(data)
    if form == 2:
        return memoryview(bytearray(data)).cast(CODES[kind])
    if form == 3 and data:
        memory = mmap.mmap(-1, len(data))
        memory[:] = bytes(data)
        return memory
    if form == 4 and kind in CTYPES:
        return (CTYPES[kind] * (len(data) // SIZES[kind])).from_buffer_copy(data)
    return array(CODES[kind], bytes(data))


def read(kind: str, data: bytearray, form: int) -> Any:
    """The same for memory that is only read, immutable memory among it."""
    if form == 1:
        return bytes(data)
    return memoryview(bytes(data)).cast(CODES[kind]) if form == 2 else lent(kind, data, form)


def flat(answer: Any) -> List[int]:
    """The values of an answer, in order."""
    if answer is None:
        return []
    if isinstance(answer, parity.Range):
        return [struct.unpack("<I", struct.pack("<f", end))[0] for end in answer]
    if isinstance(answer, tuple):
        return [value for part in answer for value in flat(part)]
    return [int(answer)]


class Answers(unittest.TestCase):
    """Questions with the answers of the Rust wrapper."""

    def ask(self, line: str, turn: int) -> Tuple[str, str]:
        question, answer = line.split(" => ")
        outcome, after = answer.split(" ; ")
        call, *arguments = question.split(" ")
        written = {token.split(":")[0]: raw(token)[2] for token in after.split(" ") if token}
        passed: List[Any] = []
        slices: Dict[str, Tuple[Any, bytearray]] = {}
        for argument in arguments:
            if ":" not in argument:
                passed.append(int(argument.split("=")[1]))
                continue
            name, kind, data = raw(argument)
            form = (turn + len(passed)) % 5
            passed.append(lent(kind, data, form) if name in written else read(kind, data, form))
            slices[name] = (passed[-1], written.get(name, data))
        try:
            found = ["ok", *flat(getattr(parity.calls, call)(*passed))]
        except parity.Refusal as refusal:
            found = ["no", int(refusal.number), *refusal.values]
        due = outcome.split(" ")
        self.assertEqual([str(value) for value in found], [value for value in due if value], question[:400])
        for name, (memory, expected) in slices.items():
            self.assertEqual(bytes(memory), bytes(expected), f"{name} after {question[:400]}")
        return call, due[0] if due[0] == "ok" else f"no {due[1]}"

    def test_every_question(self) -> None:
        self.assertTrue(QUESTIONS, "PARITY_QUESTIONS names no file of questions")
        seen: "collections.Counter[Tuple[str, str]]" = collections.Counter()
        with open(QUESTIONS, encoding="ascii") as lines:
            for turn, line in enumerate(lines):
                seen[self.ask(line.rstrip("\n"), turn)] += 1
        answered = {call for call, outcome in seen if outcome == "ok"}
        due = {name[len("parity_") :] for name in parity._library.PARAMETERS}
        self.assertEqual(answered, due, "a call was never answered")
        causes = {int(outcome[3:]) for _, outcome in seen if outcome != "ok"}
        self.assertEqual(causes, {int(cause) for cause in parity.Cause}, "a cause never came up")
        print(f"python: {sum(seen.values())} answers as the Rust wrapper's, {len(due)} calls, {len(causes)} causes")


if __name__ == "__main__":
    unittest.main()
