"""Records beside the log: kept where asked, letters without a record given, damage found and mended."""
import subprocess
import unittest

from harness import KEEPER, NODE, NODES, RECORDS, HostTest, flipped, keeper, letter_of, nodes_of, said_of, stream_of

HEAD = 4096  # where the records' bytes, and their ends, begin


class Records(HostTest):
    def setUp(self):
        super().setUp()
        self.bytes, self.ends = self.folder / "log.records", self.folder / "log.index"

    def test_letters_need_no_record(self):
        self.done("append", self.log, "--keep-records", "--stream", given=stream_of(RECORDS[:7]))
        self.done("append", self.log, given=RECORDS[7])  # once asked for, records are kept from then on
        self.done("append", self.log, self.file("a", RECORDS[8]), self.file("b", RECORDS[9]))
        for index in range(10):
            with subprocess.Popen([KEEPER, "letter", self.log, str(index)], stdin=subprocess.DEVNULL, stdout=subprocess.PIPE) as ran:
                self.assertEqual(ran.stdout.read(), letter_of(RECORDS[:10], index))
        self.assertEqual(self.bytes.read_bytes()[HEAD:HEAD + sum(map(len, RECORDS[:10]))], b"".join(RECORDS[:10]))
        self.assertIn(b"and each of 10 leaves", self.done("verify", self.log, "--records"))
        self.assertEqual(self.done("letter", self.log, 3, "--size", nodes_of(5)), letter_of(RECORDS[:5], 3))

    def test_without_it_a_log_keeps_digests_alone(self):
        self.make(RECORDS[:3])
        self.assertEqual([path.name for path in self.folder.iterdir()], ["log"])
        self.assertFalse(self.object(0, "info", self.log)["keeps_records"])
        self.failed("keeps no records", "verify", self.log, "--records")

    def test_somebody_elses_index(self):
        """A file that only has the name of an index is no hindrance to a log that keeps no records, and stays."""
        self.ends.write_bytes(b"see page 7\n")
        self.make(RECORDS[:3])
        self.holds(RECORDS[:3])
        self.assertEqual(self.done("letter", self.log, 1, given=RECORDS[1]), letter_of(RECORDS[:3], 1))
        self.failed("log.index: another file is there", "append", self.log, "--keep-records", given=b"record")
        self.assertEqual(self.ends.read_bytes(), b"see page 7\n")
        self.assertFalse(self.bytes.exists())

    def test_records_are_gone(self):
        """The bytes or the index of records that the log has: nothing is appended, and nothing is made in their place."""
        for name, gone in (("log.records", self.bytes), ("log.index", self.ends)):
            self.done("append", self.log, "--keep-records", given=RECORDS[3])
            whole = gone.read_bytes()
            gone.unlink()
            before = self.unchanged()
            for asked in ((), ("--keep-records",)):
                self.failed(f"{name} is missing", "append", self.log, *asked, given=b"record")
            self.failed(f"{name} is missing", "letter", self.log, 0)
            self.assertEqual(self.unchanged(), before)
            self.assertFalse(gone.exists())
            gone.write_bytes(whole)

    def test_crash_between_the_two(self):
        """An index that a crash has left alone, of making the two or of taking them back: the log goes on without records, and with them later."""
        self.make(RECORDS[:3])
        self.done("append", self.log, "--keep-records", given=RECORDS[3])
        index = self.ends.read_bytes()
        for left in (index[:HEAD], index):
            for asked, first in (((), 5), (("--keep-records",), 3)):
                for path in (self.log, self.bytes, self.ends):
                    path.unlink(missing_ok=True)
                self.make(RECORDS[:3])
                self.ends.write_bytes(left)
                self.assertFalse(self.object(0, "info", self.log)["keeps_records"])
                self.done("append", self.log, *asked, "--stream", given=stream_of(RECORDS[3:5]))
                self.assertEqual(self.ends.exists(), bool(asked))
                self.done("append", self.log, "--keep-records", given=RECORDS[5])
                self.assertEqual(self.object(0, "info", self.log)["records_kept_from"], first)
                self.done("verify", self.log, "--records")
                self.holds(RECORDS[:6])

    def test_refused_before_anything_is_kept(self):
        """What was made for a run that kept nothing is taken back, beside a new log and beside an older one."""
        self.refused(3, "append", self.log, "--keep-records", given=bytes(16385))
        self.assertEqual(list(self.folder.iterdir()), [])
        self.make(RECORDS[:3])
        self.refused(3, "append", self.log, "--keep-records", given=bytes(16385))
        self.failed("cannot read", "append", self.log, self.folder / "nothing", self.folder / "nowhere", "--keep-records")
        self.assertEqual(list(self.folder.iterdir()), [self.log])

    def test_begun_later(self):
        self.make(RECORDS[:3])
        self.done("append", self.log, "--keep-records", given=RECORDS[3])
        self.assertEqual(self.object(0, "info", self.log)["records_kept_from"], 3)
        self.assertEqual(self.done("letter", self.log, 3), letter_of(RECORDS[:4], 3))
        self.assertEqual(self.done("letter", self.log, 1, given=RECORDS[1]), letter_of(RECORDS[:4], 1))
        self.assertEqual(self.done("letter", self.log, 3, "--record", self.file("own", RECORDS[3])), letter_of(RECORDS[:4], 3))
        self.refused(13, "letter", self.log, 3, "--record", self.file("other", b"other"))

    def test_refused_and_interrupted(self):
        """What is behind the log's own count means nothing, and is written over."""
        self.done("append", self.log, "--keep-records", given=RECORDS[3])
        self.refused(3, "append", self.log, self.file("a", RECORDS[5]), self.file("b", bytes(16385)))
        self.done("append", self.log, given=RECORDS[4])
        self.assertEqual(self.done("letter", self.log, 1), letter_of(RECORDS[3:5], 1))
        self.done("verify", self.log, "--records")

    def test_damaged_record(self):
        self.done("append", self.log, "--keep-records", "--stream", given=stream_of(RECORDS[2:6]))
        self.bytes.write_bytes(flipped(self.bytes.read_bytes(), HEAD + 31 + 5))
        self.failed("is not the one that was logged", "letter", self.log, 1)
        self.assertEqual(self.done("letter", self.log, 1, "--record", self.file("own", RECORDS[3])), letter_of(RECORDS[2:6], 1))
        answer = self.object(2, "verify", self.log, "--records")
        self.assertEqual((answer["wrong_position"], answer["wrong_kind"]), (1, "leaf"))
        self.done("verify", self.log)

    def test_damaged_index(self):
        self.done("append", self.log, "--keep-records", "--stream", given=stream_of(RECORDS[2:6]))
        whole = self.ends.read_bytes()
        for place in range(HEAD, HEAD + 4 * 8):
            self.ends.write_bytes(whole[:place] + bytes([whole[place] ^ 0x80]) + whole[place + 1:])
            for index in range(4):
                ran = keeper("letter", self.log, index)
                if ran.returncode == 0:
                    self.assertEqual(ran.stdout, letter_of(RECORDS[2:6], index))
                else:
                    self.assertEqual((ran.returncode, ran.stdout), (2, b""), ran.stderr)
        for data in (whole[:HEAD + 8], b"", bytes(HEAD), whole[:HEAD]):
            self.ends.write_bytes(data)
            before = self.unchanged(), self.unchanged(self.bytes)
            self.failed("log.", "append", self.log, given=b"record")
            self.failed("log.", "letter", self.log, 1)
            self.assertEqual((self.unchanged(), self.unchanged(self.bytes)), before)
        self.ends.unlink()
        self.failed("is missing", "append", self.log, given=b"record")

    def test_leaf_is_mended_from_its_record(self):
        self.done("append", self.log, "--keep-records", "--stream", given=stream_of(RECORDS[:5]))
        self.log.write_bytes(flipped(flipped(self.log.read_bytes(), NODES + NODE * 3), NODES + NODE * 2))
        self.failed("nothing was appended", "append", self.log, given=b"record")
        self.assertIn(b"all 5 records are there; 2 nodes", self.done("repair", self.log, self.folder / "copy"))
        self.holds(RECORDS[:5])
        self.done("append", self.log, given=RECORDS[5])
        self.assertEqual(self.done("letter", self.log, 5), letter_of(RECORDS[:6], 5))


if __name__ == "__main__":
    unittest.main()
