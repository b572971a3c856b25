"""keeper check: many letters, a letter in words, records handed out."""
import os
import resource
import unittest

from harness import RECORDS, HostTest, flipped, keeper, letter_of, said_of


class Check(HostTest):
    def setUp(self):
        super().setUp()
        self.records = (b"12:04 ball over the line by 31 mm: goal\n", b"\x00\xff" * 40, *RECORDS[2:5])
        self.size, top, _ = said_of(self.records)
        self.noted = ("check", self.size, top.hex())
        self.letters = self.folder / "letters"
        self.letters.mkdir()
        for index in range(5):
            (self.letters / f"letter{index}").write_bytes(letter_of(self.records, index))

    def test_many(self):
        names = [str(self.letters / f"letter{index}") for index in range(5)]
        for words in ([self.letters], names):
            said = self.done(*self.noted, *words).decode().splitlines()
            self.assertEqual(said, [f"{name}: accepted: index {index}, a record of {len(self.records[index])} bytes" for index, name in enumerate(names)]
                             + ["5 letters: 5 accepted, 0 refused, 0 not read"])
        (self.letters / "letter3").write_bytes(flipped(letter_of(self.records, 3), 30))
        said = self.ran(1, "", *self.noted, self.letters).decode().splitlines()
        self.assertEqual(said[3], f"{names[3]}: refused, number 9: the root worked out from the letter is another one")
        self.assertEqual(said[5], "5 letters: 4 accepted, 1 refused, 0 not read")
        said = self.ran(2, "", *self.noted, *names, self.folder / "missing").decode().splitlines()
        self.assertIn("missing: not checked", said[5])
        self.assertEqual(said[6], "6 letters: 4 accepted, 1 refused, 1 not read")
        answer = self.object(2, *self.noted, self.letters, self.folder / "missing")
        self.assertEqual((answer["accepted_count"], answer["refused_count"], answer["unread_count"]), (4, 1, 1))
        self.assertEqual([letter.get("number", 0) for letter in answer["letters"]], [0, 0, 0, 9, 0, 0])

    def test_nothing_to_check(self):
        (self.folder / "none").mkdir()
        self.ran(2, "there is no letter there", *self.noted, self.folder / "none")

    def test_shown(self):
        said = self.done(*self.noted, "--show", given=letter_of(self.records, 0)).decode()
        self.assertEqual(said.splitlines(), ["accepted: index 0, a record of 40 bytes", "  size 8, index 0, a record of 40 bytes, 3 items",
                                             "  record, as text:", "    12:04 ball over the line by 31 mm: goal"])
        said = self.done(*self.noted, "--show", given=letter_of(self.records, 1)).decode()
        self.assertIn("  record, as hexadecimal digits:\n    " + "00ff" * 16 + "\n", said)
        said = self.ran(1, "number 9", *self.noted, "--show", given=flipped(letter_of(self.records, 0), 30)).decode()
        self.assertIn("it says, and was refused: size 8, index 0", said)
        self.assertNotIn("accepted", said)

    def test_records_out(self):
        out = self.folder / "out"
        out.mkdir()
        self.done(*self.noted, self.letters, "--records-to", out)
        self.assertEqual([(out / f"letter{index}.record").read_bytes() for index in range(5)], list(self.records))
        self.ran(2, "File exists", *self.noted, self.letters, "--records-to", out)
        self.assertEqual(self.done(*self.noted, "--record", "-", given=letter_of(self.records, 1)), self.records[1])
        if os.geteuid() != 0:  # who would replace the device where the program is wrong
            self.failed("No space left", *self.noted, "--record", "/dev/full", given=letter_of(self.records, 1))

    def test_records_are_whole(self):
        """Where a record cannot be written whole there is no file, or the one that was there; one that is replaced keeps its mode."""
        record, kept, out = bytes(16384), self.file("kept", b"kept"), self.folder / "out"
        out.mkdir()
        kept.chmod(0o640)
        noted, letter = ("check", 1, said_of([record])[1].hex()), self.file("letter", letter_of([record], 0))
        before = self.unchanged(kept)
        for words, given in ((("--record", kept), letter.read_bytes()), (("--record", self.folder / "new"), letter.read_bytes()),
                             ((letter, "--records-to", out), b"")):
            ran = keeper(*noted, *words, given=given, preexec_fn=lambda: resource.setrlimit(resource.RLIMIT_FSIZE, (5000, 5000)))
            self.assertEqual(ran.returncode, 2)
            self.assertIn(b"cannot write", ran.stderr)
            names = sorted(path.name for path in self.folder.iterdir())
            self.assertEqual((self.unchanged(kept), names, list(out.iterdir())), (before, ["kept", "letter", "letters", "out"], []))
        self.done(*noted, "--record", kept, given=letter.read_bytes())
        self.assertEqual((kept.read_bytes(), kept.stat().st_mode & 0o7777), (record, 0o640))

    def test_no_log_is_written_over(self):
        """A log named for the record or the page by mistake, or what is kept beside it, stays."""
        self.done("append", self.log, "--keep-records", given=b"call")
        for path in (self.log, self.folder / "log.records", self.folder / "log.index"):
            before = self.unchanged(path)
            for option in ("--record", "--page"):
                self.failed("is not written over", *self.noted, option, path, given=letter_of(self.records, 1))
            self.assertEqual(self.unchanged(path), before)

    def test_control_characters_are_not_shown_as_text(self):
        record = b"no goal\x1b[2K\rgoal"
        said = self.done("check", 1, said_of([record])[1].hex(), "--show", given=letter_of([record], 0))
        self.assertNotIn(b"\x1b", said)
        self.assertIn(record.hex().encode(), said)


if __name__ == "__main__":
    unittest.main()
