"""Matrix files: the same are taken, and the same refused in the same words, as by the program `parity`
(PARITY_PROGRAM, or the one that cargo built in cli)."""

from __future__ import annotations

import os
import random
import subprocess
import tempfile
import unittest
from pathlib import Path
from typing import Tuple

import parity

ROOT = Path(__file__).resolve().parents[3]
GOLDEN = ROOT / "cli" / "tests" / "program" / "golden"
PROGRAM = os.environ.get("PARITY_PROGRAM", str(ROOT / "cli" / "target" / "release" / "parity"))
EXAMPLES = sorted((ROOT / "examples").glob("*.alist"))


def mutated(data: bytes, chance: random.Random) -> bytes:
    """The file with a character, a line or a part of it changed."""
    kind = chance.randrange(6)
    place = chance.randrange(len(data))
    if kind == 0:
        return data[:place] + bytes([chance.randrange(256)]) + data[place + 1 :]
    if kind == 1:
        return data[:place] + chance.choice([b"0", b"1", b" ", b"9", b"-", b"\n", b"x", b"#"]) + data[place:]
    if kind == 2:
        return data[:place] + data[place + 1 :]
    if kind == 3:
        return data[:place]
    lines = data.split(b"\n")
    line = chance.randrange(len(lines))
    if kind == 4:
        lines[line : line + 1] = [lines[line]] * chance.choice([0, 2])
    else:
        other = chance.randrange(len(lines))
        lines[line], lines[other] = lines[other], lines[line]
    return b"\n".join(lines)


class Files(unittest.TestCase):
    def test_case_c_in_every_format(self) -> None:
        due = parity.Matrix.from_checks(7, [[0, 1, 2, 3], [0, 1, 4, 5], [0, 2, 6]])
        for name in ("case-c.alist", "case-c-unpadded.alist", "case-c.txt", "case-c.rec"):
            self.assertEqual(parity.Matrix.read(GOLDEN / name), due, name)
        self.assertEqual(due.to_alist(), (GOLDEN / "case-c.alist").read_bytes())
        self.assertEqual(due.to_text(), (GOLDEN / "case-c.txt").read_bytes())
        self.assertEqual(due.to_record(), (GOLDEN / "case-c.rec").read_bytes())
        extended = parity.Matrix.read(GOLDEN / "case-c-extended.rec")
        self.assertEqual(extended, due.orthogonalised())
        self.assertEqual(extended.to_record(), (GOLDEN / "case-c-extended.rec").read_bytes())
        self.assertEqual(extended.given(), due)
        with self.assertRaisesRegex(parity.FileFault, "splits of the matrix can stand in a record only"):
            extended.to_alist()

    def test_there_and_back(self) -> None:
        self.assertTrue(EXAMPLES)
        with tempfile.TemporaryDirectory() as folder:
            for example in EXAMPLES:
                matrix = parity.Matrix.read(example)
                for name in ("a.alist", "a.TXT", "a.rec"):
                    path = Path(folder) / name
                    matrix.write(path)
                    self.assertEqual(parity.Matrix.read(path), matrix)
        with self.assertRaisesRegex(ValueError, "the format is none of"):
            parity.Matrix.read("matrix.dat")

    def test_what_editors_put_in_unseen(self) -> None:
        for read in (parity.Matrix.from_alist, parity.Matrix.from_text):
            with self.assertRaises(parity.FileFault) as caught:
                read(b"\xef\xbb\xbf111\n")
            self.assertEqual(caught.exception.what, "a byte order mark (UTF-8) stands before the text; save the file without it")
        for text, shown in ((b"1\xc3\xa91", "'\u00e9'"), (b"1\xff1", "'\ufffd'"), (b"1\x1b", "'\\u{1b}'"), (b"1\xe2\x82", "'\ufffd'")):
            with self.assertRaises(parity.FileFault) as caught:
                parity.Matrix.from_text(text)
            self.assertEqual(caught.exception.what, f"{shown} at character 2 is neither 0 nor 1")

    def of_program(self, path: Path, folder: str) -> Tuple[int, bytes]:
        out = Path(folder) / "out.rec"
        done = subprocess.run([PROGRAM, "convert", str(path), str(out)], capture_output=True, check=False)
        self.assertIn(done.returncode, (0, 1), done.stderr)
        return done.returncode, out.read_bytes() if done.returncode == 0 else done.stderr

    def compare(self, path: Path, folder: str) -> bool:
        status, due = self.of_program(path, folder)
        try:
            found = parity.Matrix.read(path).to_record()
        except parity.FileFault as fault:
            self.assertEqual(status, 1, f"taken by the program: {fault}")
            if fault.line is not None:
                self.assertEqual(f"parity: {path}:{fault.line}: {fault.what}\n", due.decode())
            return False
        self.assertEqual(status, 0, due)
        self.assertEqual(found, due)
        return True

    def test_files_as_the_program_takes_them(self) -> None:
        self.assertTrue(os.access(PROGRAM, os.X_OK), f"the program {PROGRAM} is missing: cargo builds it in cli")
        chance = random.Random(44)
        sources = [GOLDEN / name for name in ("case-c.alist", "case-c-unpadded.alist", "case-c.txt", "case-c.rec")]
        sources += [GOLDEN / "case-c-extended.rec", EXAMPLES[0]]
        taken = 0
        with tempfile.TemporaryDirectory() as folder:
            for turn in range(600):
                source = sources[turn % len(sources)]
                path = Path(folder) / f"file{source.suffix}"
                path.write_bytes(mutated(source.read_bytes(), chance))
                taken += self.compare(path, folder)
        self.assertGreater(taken, 50)
        self.assertGreater(600 - taken, 200)


if __name__ == "__main__":
    unittest.main()
